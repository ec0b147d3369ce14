"""Cuts an LLVM module into parts that compilers can work on in parallel.

Each part is the whole module, but has the bodies of some functions only: the others are declarations there. So that the
parts link, the functions that are cut lose their internal linkage and become hidden symbols. Small functions stay as
they are in every part, so that they can be inlined there; a part in which nothing calls one loses it. Everything else
(types, constants, tables of functions) is in every part, and unused copies are dropped by the compiler.

The module is read as a bitstream (llvm.org/docs/BitCodeFormat.html): its own records one by one, and what is nested in
it as blocks that are kept or left out whole.
"""
from dataclasses import dataclass, field
from itertools import accumulate
from typing import Iterator, NamedTuple

END_BLOCK, ENTER_BLOCK, DEFINE_ABBREVIATION, PLAIN_RECORD = range(4)
FIXED, VARIABLE, ARRAY, CHAR6, BLOB = range(1, 6)
MODULE, FUNCTION_BODY, NAMES = 8, 12, 23
VERSION, GLOBAL_VARIABLE, FUNCTION, OFFSET_OF_NAMES = 1, 7, 8, 13
EXTERNAL, HIDDEN = 0, 1
# Where numbers are in the record of a function, and of a global variable.
NAME_BEGIN, NAME_SIZE, IS_DECLARATION, FUNCTION_LINKAGE, FUNCTION_VISIBILITY = 0, 1, 4, 5, 9
IS_CONSTANT, INITIAL, VARIABLE_LINKAGE, VARIABLE_VISIBILITY = 3, 4, 5, 8


class NotAsExpected(Exception):
    """What of a module isn't as this reader knows it."""


class Operand(NamedTuple):
    """How an operand of an abbreviated record is written; a literal has a value and no place."""
    encoding: int
    value: int


class Place(NamedTuple):
    """A number of a plain record, and the bit at which it is."""
    value: int
    at: int


class Block(NamedTuple):
    """A block: what it holds, and the bits from its beginning to its end; what it holds begins after its length."""
    kind: int
    begin: int
    inside: int
    end: int


class Record(NamedTuple):
    """A record of the module itself. An abbreviated one has no operands here, but the bytes of its blob."""
    code: int
    operands: list[Place]
    blob: bytes = b""


@dataclass
class Bits:
    """A place in a bitstream."""
    data: bytes
    at: int

    def fixed(self, width: int) -> int:
        begin = self.at >> 3
        word = int.from_bytes(self.data[begin:begin + 9], "little")
        value = (word >> (self.at & 7)) & ((1 << width) - 1)
        self.at += width
        return value

    def variable(self, width: int) -> int:
        value, shift, more = 0, 0, 1 << (width - 1)
        while True:
            chunk = self.fixed(width)
            value |= (chunk & (more - 1)) << shift
            shift += width - 1
            if not chunk & more:
                return value
            if shift > 70:
                raise NotAsExpected("a number is too long")

    def align(self) -> None:
        self.at = (self.at + 31) & ~31

    def places(self, count: int) -> list[Place]:
        """So many numbers in groups of six bits, as a plain record has them: half a million in a module."""
        data, at, places = self.data, self.at, []
        for _ in range(count):
            begin, value, shift, more = at, 0, 0, 32
            while more:
                group = (data[at >> 3] | data[(at >> 3) + 1] << 8) >> (at & 7)
                value |= (group & 31) << shift
                more = group & 32
                shift += 5
                at += 6
            places.append(Place(value, begin))
        self.at = at
        return places


@dataclass
class Reader:
    """Reads what a block has on its own level."""
    bits: Bits
    width: int
    abbreviations: list[list[Operand]] = field(default_factory=list)

    def items(self) -> Iterator[Record | Block]:
        """Each record and each nested block, up to the block's end."""
        while (what := self.bits.fixed(self.width)) != END_BLOCK:
            if what == ENTER_BLOCK:
                yield self.nested()
            elif what == DEFINE_ABBREVIATION:
                self.abbreviations.append(self.abbreviation())
            elif what == PLAIN_RECORD:
                yield self.plain()
            elif what - 4 < len(self.abbreviations):
                yield self.abbreviated(self.abbreviations[what - 4])
            else:
                raise NotAsExpected(f"abbreviation {what} isn't defined")

    def nested(self) -> Block:
        bits = self.bits
        begin = bits.at - self.width
        kind = bits.variable(8)
        bits.variable(4)
        bits.align()
        words = bits.fixed(32)
        inside = bits.at
        bits.at += 32 * words
        return Block(kind, begin, inside, bits.at)

    def plain(self) -> Record:
        bits = self.bits
        code, count = bits.variable(6), bits.variable(6)
        return Record(code, bits.places(count))

    def abbreviation(self) -> list[Operand]:
        bits = self.bits
        operands = []
        for _ in range(bits.variable(5)):
            if bits.fixed(1):
                operands.append(Operand(0, bits.variable(8)))
            else:
                encoding = bits.fixed(3)
                width = bits.variable(5) if encoding in (FIXED, VARIABLE) else 0
                operands.append(Operand(encoding, width))
        return operands

    def abbreviated(self, operands: list[Operand]) -> Record:
        values, blob = [], b""
        left = iter(operands)
        for operand in left:
            if operand.encoding == ARRAY:
                element = next(left)
                values += [self.value(element) for _ in range(self.bits.variable(6))]
            elif operand.encoding == BLOB:
                size = self.bits.variable(6)
                self.bits.align()
                begin = self.bits.at // 8
                blob = self.bits.data[begin:begin + size]
                self.bits.at += 8 * size
                self.bits.align()
            else:
                values.append(self.value(operand))
        return Record(values[0], [], blob)

    def value(self, operand: Operand) -> int:
        if operand.encoding == FIXED:
            return self.bits.fixed(operand.value)
        if operand.encoding == VARIABLE:
            return self.bits.variable(operand.value)
        if operand.encoding == CHAR6:
            return self.bits.fixed(6)
        return operand.value


@dataclass
class Module:
    """What a module's own level has."""
    data: bytes
    block: Block
    functions: list[Record]
    globals: list[Record]
    bodies: list[Block]


def whole_block(data: bytes, at: int) -> tuple[Block, int]:
    """The block that begins at a bit of the file's own level, and the width of what begins an item in it."""
    outside = Reader(Bits(data, at), 2)
    if outside.bits.fixed(2) != ENTER_BLOCK:
        raise NotAsExpected("no block begins where one should")
    head = Bits(data, outside.bits.at)
    head.variable(8)
    return outside.nested(), head.variable(4)


def read(data: bytes) -> Module:
    """Reads a file of bitcode, in which one block is the module."""
    if data[:4] != b"BC\xc0\xde" or len(data) % 4:
        raise NotAsExpected("it is no bitcode")
    at = 32
    while at < 8 * len(data):
        block, width = whole_block(data, at)
        if block.kind == MODULE:
            break
        at = block.end
    else:
        raise NotAsExpected("it has no module")
    items = list(Reader(Bits(data, block.inside), width).items())
    records = [item for item in items if isinstance(item, Record)]
    if OFFSET_OF_NAMES in {record.code for record in records}:
        raise NotAsExpected("it has places of function bodies, which a cut would change")
    module = Module(
        data, block,
        [record for record in records if record.code == FUNCTION],
        [record for record in records if record.code == GLOBAL_VARIABLE],
        [item for item in items if isinstance(item, Block) and item.kind == FUNCTION_BODY])
    check(module)
    return module


def names(data: bytes) -> bytes:
    """The names of all that a file defines or declares, in one text."""
    at = 32
    while at < 8 * len(data):
        block, width = whole_block(data, at)
        if block.kind == NAMES:
            items = Reader(Bits(data, block.inside), width).items()
            return b"".join(item.blob for item in items if isinstance(item, Record))
        at = block.end
    raise NotAsExpected("it has no names")


def has_name(function: Record, texts: bytes, end: bytes) -> bool:
    """Whether the name of a function, which is in the text of all names, has this end."""
    begin, size = function.operands[NAME_BEGIN].value, function.operands[NAME_SIZE].value
    return texts[begin:begin + size].endswith(end)


def is_defined(function: Record) -> bool:
    return function.operands[IS_DECLARATION].value == 0


def check(module: Module) -> None:
    """Refuses a module whose records aren't those that the cut changes."""
    if any(len(function.operands) <= FUNCTION_VISIBILITY for function in module.functions):
        raise NotAsExpected("a function's record is too short")
    if any(len(variable.operands) <= VARIABLE_VISIBILITY for variable in module.globals):
        raise NotAsExpected("a variable's record is too short")
    if len([function for function in module.functions if is_defined(function)]) != len(module.bodies):
        raise NotAsExpected("its functions and its bodies aren't as many")
    if any(body.begin % 32 for body in module.bodies):
        raise NotAsExpected("a body doesn't begin at a word")


def put(data: bytearray, place: Place, value: int) -> None:
    """Writes another number in place of one, over as many groups of six bits."""
    groups = max(1, -(-place.value.bit_length() // 5))
    if value >> 5 * groups:
        raise NotAsExpected("a number has no place")
    for group in range(groups):
        more = 32 if group + 1 < groups else 0
        put_six(data, place.at + 6 * group, value >> 5 * group & 31 | more)


def put_six(data: bytearray, at: int, value: int) -> None:
    begin, shift = at >> 3, at & 7
    word = int.from_bytes(data[begin:begin + 2], "little") & ~(63 << shift) | value << shift
    data[begin:begin + 2] = word.to_bytes(2, "little")


def shares(sizes: list[int], parts: int, small: int) -> list[int | None]:
    """Which part has each function's body: None for one that every part has. Neighbors stay together, since they call
    each other more often than others, and calls within a part can be inlined."""
    large = [size if size > small else 0 for size in sizes]
    total = sum(large) or 1
    ends = accumulate(large)
    return [(2 * end - size) * parts // (2 * total) if size else None for size, end in zip(large, ends)]


def cut(module: Module, parts: int, small: int, alone: str = "") -> Iterator[bytes]:
    """The parts. Functions whose bodies have at most so many bytes are in each. The functions whose names end with the
    text `alone`, if there is one, have one more part of their own, so that no other part knows what they do."""
    owners = shares([(body.end - body.begin) // 8 for body in module.bodies], parts, small)
    defined = [function for function in module.functions if is_defined(function)]
    # A small one that other files may call, such as main, is defined once, too.
    owners = [0 if owner is None and function.operands[FUNCTION_LINKAGE].value == EXTERNAL else owner
              for function, owner in zip(defined, owners)]
    if alone:
        texts = names(module.data)
        owners = [parts if has_name(function, texts, alone.encode()) else owner
                  for function, owner in zip(defined, owners)]
        parts += 1
    for part in range(parts):
        yield one_part(module, owners, part)


def one_part(module: Module, owners: list[int | None], part: int) -> bytes:
    data = bytearray(module.data)
    defined = [function for function in module.functions if is_defined(function)]
    for function, owner in zip(defined, owners):
        if owner is not None:
            make_hidden(data, function, FUNCTION_LINKAGE, FUNCTION_VISIBILITY)
            if owner != part:
                put(data, function.operands[IS_DECLARATION], 1)
    for variable in module.globals:
        if variable.operands[IS_CONSTANT].value & 1 == 0 and variable.operands[INITIAL].value:
            make_hidden(data, variable, VARIABLE_LINKAGE, VARIABLE_VISIBILITY)
            if part:
                put(data, variable.operands[INITIAL], 0)
    dropped = [body for body, owner in zip(module.bodies, owners) if owner not in (None, part)]
    return without(data, module.block, dropped)


def make_hidden(data: bytearray, record: Record, linkage: int, visibility: int) -> None:
    """Gives what is defined in one part, and used in others, the linkage for that. What is external stays as it is."""
    if record.operands[linkage].value != EXTERNAL:
        put(data, record.operands[linkage], EXTERNAL)
        put(data, record.operands[visibility], HIDDEN)


def without(data: bytes | bytearray, module: Block, dropped: list[Block]) -> bytes:
    """The file without some blocks of its module. The module's length is in the word before what it holds."""
    kept, at = [], 0
    for block in dropped:
        kept.append(data[at // 8:block.begin // 8])
        at = block.end
    kept.append(data[at // 8:])
    words = sum(block.end - block.begin for block in dropped) // 32
    begin = module.inside // 8 - 4
    length = int.from_bytes(data[begin:begin + 4], "little") - words
    joined = bytes().join(kept)
    return joined[:begin] + length.to_bytes(4, "little") + joined[begin + 4:]
