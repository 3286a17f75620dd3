"""Texts that differ as editors have them differ: by the ends of their lines, and by U+FEFF at the front."""
MARK = "\ufeff".encode()


def without_mark(text: bytes) -> bytes:
    return text[len(MARK) :] if text.startswith(MARK) else text


def plain(text: bytes) -> bytes:
    """Without a first U+FEFF, and without each CR that stands directly before an LF."""
    return without_mark(text).replace(b"\r\n", b"\n")


def is_like(one: bytes, other: bytes) -> bool:
    return plain(one) == plain(other)


def is_crlf(text: bytes) -> bool:
    return b"\n" in text and text.count(b"\n") == text.count(b"\r\n")


def is_mixed(text: bytes) -> bool:
    return b"\r" in text and not is_crlf(text)


def in_manner_of(was: bytes, now: bytes) -> bytes:
    """A text with U+FEFF and line ends as another one has them; with LF where that one has some of each."""
    made = without_mark(now).replace(b"\r\n", b"\n")
    if is_crlf(was):
        made = made.replace(b"\n", b"\r\n")
    return (MARK if was.startswith(MARK) else b"") + made
