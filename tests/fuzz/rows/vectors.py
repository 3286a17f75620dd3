"""A sheet, bundles and a summary that the worked examples use."""
from typing import Callable

from model.bundles import write_bundle
from model.faults import Fault
from model.operations import Operation, set_of
from model.references import HEAD, Id, Key, Verse

SHEET = rb"""# sheet of the worked rows
\Marker id
\StyleType Paragraph
\Marker c
\StyleType Paragraph
\Marker v
\StyleType Character
\Marker p
\StyleType Paragraph
\TextType VerseText
\Marker add
\Endmarker add*
\OccursUnder p NEST
\StyleType Character
\Marker nd
\Endmarker nd*
\OccursUnder p NEST
\StyleType Character
\Marker wj
\Endmarker wj*
\OccursUnder p NEST
\StyleType Character
\Marker w
\Endmarker w*
\OccursUnder p NEST
\StyleType Character
\Marker f
\Endmarker f*
\OccursUnder p
\StyleType Note
\Marker ft
\Endmarker ft*
\OccursUnder f
\StyleType Character
\Marker qt-s
\Endmarker qt-e
\StyleType Milestone
"""

# 1 ana on MAT 0 and 2 ana on MAT 1:1; 3 ben and 3 ana on MAT 1:1, each naming 2 ana.
FIRST = bytes.fromhex(
    "5553464d5352310a 0000000000000002"
    "0000000000000001 03 616e61 4d4154 0000 00 0000 00 0000000000000000 01 0000000000000008 5c6964204d41540a"
    "0000000000000002 03 616e61 4d4154 0001 01 0001 00 0000000000000000 01 0000000000000008 5c76203120496e0a"
)
BENS = bytes.fromhex(
    "5553464d5352310a 0000000000000001 0000000000000003 03 62656e 4d4154 0001 01 0001 00"
    "0000000000000001 0000000000000002 03 616e61 01 0000000000000008 5c7620312041740a"
)
ANAS = bytes.fromhex(
    "5553464d5352310a 0000000000000001 0000000000000003 03 616e61 4d4154 0001 01 0001 00"
    "0000000000000001 0000000000000002 03 616e61 01 0000000000000008 5c76203120546f0a"
)
# 2 ana without its text, and 3 ben as above.
THINNED = bytes.fromhex(
    "5553464d5352320a 0000000000000002"
    "0000000000000002 03 616e61 4d4154 0001 01 0001 00 0000000000000000 00"
    "0000000000000003 03 62656e 4d4154 0001 01 0001 00"
    "0000000000000001 0000000000000002 03 616e61 01 0000000000000008 5c7620312041740a"
)
SUMMARY = bytes.fromhex(
    "5553464d5353310a 0000000000000001 03 616e61 0000000000000002"
    "0000000000000001 0000000000000003 0000000000000005 0000000000000005"
)
EMPTY = bytes.fromhex("5553464d504a310a 03 616e61 5553464d5352310a 0000000000000000")

# An operation clashes with the one of the first bundle.
CLASHING = write_bundle(
    set_of(
        [
            Operation(Id(1, "cy"), "MAT", Key(1, HEAD), (), b"\\c 1\n"),
            Operation(Id(1, "dan"), "MAT", Key(1, Verse(2)), (), b"\\v 2 b\n"),
            Operation(Id(2, "ana"), "MAT", Key(1, Verse(1)), (), b"\\v 1 Xx\n"),
        ]
    )
)
BOOK = b"\\id MAT\n\\c 1\n\\v 1 In\n"


def answer_of(call: Callable, *given: object) -> object:
    """What a call gives, or the line of its fault."""
    try:
        return call(*given)
    except Fault as fault:
        return fault.line()
