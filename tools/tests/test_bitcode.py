"""How tools/build cuts a module."""
import unittest

from buildlib import bitcode
from tests import bitstreams

LARGE, SMALL = 100, 1
LIMIT = 4 * 20


def functions(data: bytes) -> list[tuple[int, int, int]]:
    """Of each function whether it is declared only, its linkage, and its visibility."""
    at = (bitcode.IS_DECLARATION, bitcode.FUNCTION_LINKAGE, bitcode.FUNCTION_VISIBILITY)
    return [tuple(record.operands[place].value for place in at)  # type: ignore[misc]
            for record in bitcode.read(data).functions]


def variables(data: bytes) -> list[tuple[int, int, int]]:
    """Of each variable what it begins with, its linkage, and its visibility."""
    at = (bitcode.INITIAL, bitcode.VARIABLE_LINKAGE, bitcode.VARIABLE_VISIBILITY)
    return [tuple(record.operands[place].value for place in at)  # type: ignore[misc]
            for record in bitcode.read(data).globals]


class Cut(unittest.TestCase):
    def cut(self, sizes: list[int], parts: int) -> list[bytes]:
        return list(bitcode.cut(bitcode.read(bitstreams.module(sizes)), parts, LIMIT))

    def test_each_large_body_is_in_one_part(self) -> None:
        first, second = self.cut([LARGE, SMALL, LARGE, SMALL], 2)
        external, hidden, internal = (0, 0, 0), (0, 0, 1), (0, 3, 0)
        declared, declared_hidden = (1, 0, 0), (1, 0, 1)
        self.assertEqual(functions(first), [declared, external, internal, declared_hidden, internal])
        self.assertEqual(functions(second), [declared, declared, internal, hidden, internal])

    def test_bodies_follow_their_functions(self) -> None:
        sizes = [LARGE, SMALL, LARGE + 1, LARGE + 2, SMALL + 1, LARGE + 3]
        for part in self.cut(sizes, 3):
            module = bitcode.read(part)
            kept = [size for size, (declared, _, _) in zip(sizes, functions(part)[1:]) if not declared]
            lengths = [body.end - body.inside for body in module.bodies]
            whole = bitcode.read(bitstreams.module(kept))
            self.assertEqual(lengths, [body.end - body.inside for body in whole.bodies])
            self.assertEqual(len(part), len(bitstreams.module(kept)) + 4 * self.more_words(part, kept))

    def more_words(self, part: bytes, kept: list[int]) -> int:
        """The words by which a part's records are more than those of a module that has the bodies only."""
        return (bitcode.read(part).bodies[0].begin - bitcode.read(bitstreams.module(kept)).bodies[0].begin) // 32

    def test_variables_are_defined_once_and_constants_in_each_part(self) -> None:
        first, second = self.cut([LARGE, LARGE], 2)
        self.assertEqual(variables(first), [(59181, 0, 1), (59182, 9, 0)])
        self.assertEqual(variables(second), [(0, 0, 1), (59182, 9, 0)])

    def test_a_small_external_function_is_defined_once(self) -> None:
        first, second = self.cut([SMALL, SMALL, LARGE, LARGE], 2)
        self.assertEqual(functions(first)[1:3], [(0, 0, 0), (0, 3, 0)])
        self.assertEqual(functions(second)[1:3], [(1, 0, 0), (0, 3, 0)])

    def test_one_part_has_all(self) -> None:
        part, = self.cut([LARGE, SMALL], 1)
        self.assertEqual([declared for declared, _, _ in functions(part)], [1, 0, 0])

    def test_a_function_in_a_part_of_its_own(self) -> None:
        module = bitcode.read(bitstreams.module([LARGE, SMALL, LARGE]))
        first, second, last = bitcode.cut(module, 2, LIMIT, "b")
        declared = [[declared for declared, _, _ in functions(part)] for part in (first, second, last)]
        self.assertEqual(declared, [[1, 0, 1, 1], [1, 1, 1, 0], [1, 1, 0, 1]])
        self.assertEqual(functions(last)[2], (0, 0, 1))

    def test_names(self) -> None:
        self.assertEqual(bitcode.names(bitstreams.module([LARGE])), b"abcdefgh")
        with self.assertRaises(bitcode.NotAsExpected):
            bitcode.names(bitstreams.module([LARGE])[:4])

    def test_shares(self) -> None:
        cases: list[tuple[list[int], int, list[int | None]]] = [
            ([], 4, []),
            ([1, 1], 4, [None, None]),
            ([9, 9, 9, 9], 4, [0, 1, 2, 3]),
            ([9, 1, 9], 2, [0, None, 1]),
            ([30, 9, 9, 9], 2, [0, 1, 1, 1]),
            ([9], 4, [2]),
        ]
        for sizes, parts, wanted in cases:
            with self.subTest(sizes=sizes, parts=parts):
                self.assertEqual(bitcode.shares(sizes, parts, 5), wanted)


class Refused(unittest.TestCase):
    def test_not_as_expected(self) -> None:
        whole = bitstreams.module([LARGE])
        for name, data in {
            "no bitcode": b"lowered\n",
            "no module": whole[:4],
            "half a word": whole + b"x",
            "places of bodies": bitstreams.module([LARGE], more=(bitcode.OFFSET_OF_NAMES,)),
            "a function without a body": without_a_body(),
        }.items():
            with self.subTest(name), self.assertRaises(bitcode.NotAsExpected):
                bitcode.read(data)


def without_a_body() -> bytes:
    """A module in which a function is defined without a body."""
    module = bitcode.read(bitstreams.module([LARGE, LARGE]))
    return bitcode.without(module.data, module.block, module.bodies[1:])
