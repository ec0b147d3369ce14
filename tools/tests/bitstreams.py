"""Writes small bitstreams in the format of LLVM's bitcode."""
from dataclasses import dataclass, field

# What ends a level, begins a nested block, defines an abbreviation, or is a record without one.
END, ENTER, DEFINE, RECORD = range(4)


@dataclass
class Writer:
    """A bitstream in the making; the bits so far, from the lowest on."""
    bits: list[int] = field(default_factory=list)

    def fixed(self, value: int, width: int) -> None:
        self.bits += [value >> at & 1 for at in range(width)]

    def variable(self, value: int, width: int) -> None:
        while value >> width - 1:
            self.fixed(value & (1 << width - 1) - 1 | 1 << width - 1, width)
            value >>= width - 1
        self.fixed(value, width)

    def align(self) -> None:
        self.bits += [0] * (-len(self.bits) % 32)

    def record(self, width: int, code: int, *operands: int) -> None:
        self.fixed(RECORD, width)
        for value in (code, len(operands), *operands):
            self.variable(value, 6)

    def block(self, width: int, kind: int, own_width: int, inside: "Writer") -> None:
        inside.fixed(END, own_width)
        inside.align()
        self.fixed(ENTER, width)
        self.variable(kind, 8)
        self.variable(own_width, 4)
        self.align()
        self.fixed(len(inside.bits) // 32, 32)
        self.bits += inside.bits

    def whole(self) -> bytes:
        return bytes(sum(bit << at for at, bit in enumerate(self.bits[begin:begin + 8]))
                     for begin in range(0, len(self.bits), 8))


def names(text: bytes) -> Writer:
    """A text of names: an abbreviation of a record with a blob, and that record."""
    inside = Writer()
    inside.fixed(DEFINE, 3)
    inside.variable(2, 5)
    inside.fixed(1, 1)
    inside.variable(1, 8)
    inside.fixed(0, 1)
    inside.fixed(5, 3)
    inside.fixed(4, 3)
    inside.variable(len(text), 6)
    inside.align()
    for byte in text:
        inside.fixed(byte, 8)
    inside.align()
    return inside


def body(words: int) -> Writer:
    """A function's body with so many words of a record."""
    inside = Writer()
    inside.record(4, 2, *[31] * (words * 5))
    return inside


def module(sizes: list[int], declared: int = 1, more: tuple[int, ...] = ()) -> bytes:
    """A file of bitcode: a function that is declared, one for each size with a body, of which the first is external, a
    variable, a constant, and records of these codes. The functions are named by letters, both kinds from `a` on."""
    inside = Writer()
    inside.record(3, 1, 2)
    for at in range(declared):
        inside.record(3, 8, at, 1, 4, 0, 1, 0, 1, 0, 0, 0)
    for at in range(len(sizes)):
        inside.record(3, 8, at, 1, 4, 0, 0, 3 if at else 0, 1, 0, 0, 0)
    inside.record(3, 7, 40, 8, 8, 2, 59181, 9, 1, 0, 0, 0, 0)
    inside.record(3, 7, 48, 8, 8, 3, 59182, 9, 1, 0, 0, 0, 1)
    for code in more:
        inside.record(3, code, 0)
    inside.block(3, 11, 4, body(3))
    for size in sizes:
        inside.block(3, 12, 4, body(size))
    whole = Writer()
    whole.fixed(int.from_bytes(b"BC\xc0\xde", "little"), 32)
    whole.block(2, 13, 3, Writer())
    whole.block(2, 8, 3, inside)
    whole.block(2, 23, 3, names(b"abcdefgh"))
    return whole.whole()
