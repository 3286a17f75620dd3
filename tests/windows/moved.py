"""The program at another address: Windows begins it at one that it draws, and wine always at the one that the file names."""
import struct
from pathlib import Path

# By so much the program is moved: what is lost of it beyond 32 bits is seen.
AWAY = 0x1_2345_0000
# Where the header of the file has what is read here, and how one entry of its list of addresses is told from a filling.
HEADER_AT, COUNT, OPTIONAL, BASE, LIST = 0x3C, 6, 24, 24, 152
SECTION, WHOLE_ADDRESS = 40, 10


def moved(image: bytes) -> bytes:
    """The program as it is after Windows has put it elsewhere: each address in it that the file lists is another one."""
    out = bytearray(image)
    header = struct.unpack_from("<I", out, HEADER_AT)[0]
    count, length = (struct.unpack_from("<H", out, header + at)[0] for at in (COUNT, 20))
    optional = header + OPTIONAL
    first = optional + length
    sections = [struct.unpack_from("<8xIIII", out, first + SECTION * at) for at in range(count)]

    def add(at: int) -> None:
        struct.pack_into("<Q", out, at, struct.unpack_from("<Q", out, at)[0] + AWAY)

    def place(address: int) -> int:
        """Where in the file it is that has an address."""
        return next(begin + address - start for size, start, kept, begin in sections if start <= address < start + max(size, kept))

    add(optional + BASE)
    address, size = struct.unpack_from("<II", out, optional + LIST)
    at = place(address)
    end = at + size
    while at < end:
        page, block = struct.unpack_from("<II", out, at)
        for entry in struct.unpack_from(f"<{(block - 8) // 2}H", out, at + 8):
            if entry >> 12 == WHOLE_ADDRESS:
                add(place(page + (entry & 0xFFF)))
        at += block
    return bytes(out)


def put_moved(program: Path, folder: Path) -> Path:
    """Writes the program that is at another address into a folder."""
    path = folder / "moved.exe"
    path.write_bytes(moved(program.read_bytes()))
    return path
