"""Refusals."""
from typing import Optional


class Fault(Exception):
    """Why something was refused: a number, and its details."""

    def __init__(self, number: int, *details: object) -> None:
        super().__init__(number, *details)
        self.number = number
        self.details = details
        # The file that it is of, where the words name several.
        self.file: Optional[str] = None
        # What is said of it then.
        self.lines: list[str] = []

    def line(self) -> bytes:
        """What the program writes on standard error."""
        line = " ".join(["fault", str(self.number), *map(str, self.details)]).encode() + b"\n"
        line = line if self.file is None else line + b"in %s\n" % self.file.encode()
        return line + "".join(f"{it}\n" for it in self.lines).encode()


def text_of(data: bytes) -> bytes:
    """The same bytes where they are UTF-8; else the refusal with the number of valid bytes before."""
    try:
        data.decode("utf-8")
    except UnicodeDecodeError as error:
        raise Fault(10, error.start) from None
    return data
