"""Tests of the Python module: its examples, its answers beside a small model, and what it must not let through.

    python3 python/test_jibrufath.py

tests the library that JIBRUFATH_LIBRARY names, or else the one for x86-64 in target/archives.
"""

import array
import ctypes
import doctest
import importlib.util
import itertools
import mmap
import os
import pathlib
import pickle
import random
import re
import shutil
import struct
import subprocess
import sys
import tempfile
import unittest
from unittest import mock

MODULE = pathlib.Path(__file__).resolve().with_name("jibrufath.py")
ROOT = MODULE.parent.parent
ARCHIVES = ROOT / "target" / "archives"
NAME = "libjibrufath.so.3"
WITH_AVX2 = ARCHIVES / "x86-64-v3" / NAME
os.environ.setdefault("JIBRUFATH_LIBRARY", str(ARCHIVES / "x86-64" / NAME))
sys.path.insert(0, str(MODULE.parent))
sys.dont_write_bytecode = True      # the tests leave the work tree as it was

import jibrufath  # noqa: E402  (the path of the library is set first)
from jibrufath import Limit, Number, Plan, Refusal, Shape  # noqa: E402

HEADER = (ROOT / "include" / "jibrufath.h").read_text()
README = ROOT / "README.md"


# The model: what the header says of cubes, in the shortest way and not the fastest.


def product(a, b):
    """The product in the field, by shift and add."""
    result = 0
    while b:
        result ^= a if b & 1 else 0
        a = a << 1 ^ (0x1C3 if a & 0x80 else 0)
        b >>= 1
    return result


def power(i):
    """02h to the i-th."""
    return product(power(i - 1), 2) if i else 1


POWERS = [power(i) for i in range(256)]


def cell_number(shape, a, b, c):
    return a + shape.l1 * (b + shape.l2 * c)


def lines(shape, axis):
    """The lines along an axis as lists of cell numbers, in the order of their first cells."""
    lengths = shape[:3]
    starts = itertools.product(*(range(1 if place == axis - 1 else lengths[place]) for place in range(3)))
    along = (1, shape.l1, shape.l1 * shape.l2)[axis - 1]
    firsts = sorted(cell_number(shape, *start) for start in starts)
    return [[first + along * i for i in range(lengths[axis - 1])] for first in firsts]


def all_lines(shape):
    return [line for axis in (1, 2, 3) for line in lines(shape, axis)]


def is_right(shape, cube, line):
    """Whether both sums of a line are zero in every layer."""
    for layer in range(shape.w):
        first = second = 0
        for i, cell in enumerate(line):
            byte = cube[shape.w * cell + layer]
            first ^= byte
            second ^= product(POWERS[i], byte)
        if first or second:
            return False
    return True


def peel(shape, missing):
    """The cells left of missing ones, where lines with one or two are filled until there is none."""
    left, before = set(missing), None
    every = [frozenset(line) for line in all_lines(shape)]
    while left != before:
        before = set(left)
        for line in every:
            if len(line & left) < 3:
                left -= line
    return left


def data_cells(shape):
    """The numbers of the cells that hold the data string."""
    ranges = [range(length - 2) for length in (shape.l3, shape.l2, shape.l1)]
    return [cell_number(shape, a, b, c) for c, b, a in itertools.product(*ranges)]


def random_shape(rng, longest=7, widest=20):
    """A small shape that has room for the length of a file."""
    while True:
        shape = Shape(*(rng.randint(3, longest) for _ in range(3)), rng.randint(1, widest))
        if shape.capacity >= 4:
            return shape


def random_file(rng, shape):
    return rng.randbytes(rng.randint(0, shape.file_bytes))


def random_plan(rng):
    """A plan that keeps the rules."""
    closures = sorted(rng.sample(range(65_536), rng.randint(0, 5)))
    fibres = [(closure, number) for closure in closures for number in sorted(rng.sample(range(1, 289), 6))]
    splices = []
    for first in range(0, len(fibres), 6):
        indexes = rng.sample(range(first, first + 6), 2 * rng.randint(0, 3))
        splices += [tuple(sorted(pair)) for pair in zip(indexes[::2], indexes[1::2])]
    return Plan(closures, fibres, sorted(splices))


def outcome(module, call, *arguments):
    """What a call gives, or the error that it raises, in a form that two copies of the module share."""
    try:
        return getattr(module, call)(*arguments)
    except module.Refusal as refusal:
        return "refused", int(refusal.number), refusal.place
    except module.Limit as limit:
        return "limit", limit.bytes, limit.limit


def kind(came):
    """What sort of outcome this is: an answer, the limit, or a refusal with its number."""
    if type(came) is not tuple:
        return "answer"
    return came[:2] if came[0] == "refused" else came[0]


def run(code, folder=MODULE.parent, **environment):
    """What Python says of some code that is run in a folder, with these variables besides the usual ones."""
    usual = {key: value for key, value in os.environ.items() if key != "JIBRUFATH_LIBRARY"}
    return subprocess.run(
        [sys.executable, "-c", code],
        cwd=folder, env={**usual, **environment, "PYTHONDONTWRITEBYTECODE": "1"}, capture_output=True, text=True,
    )


class Examples(unittest.TestCase):
    """The examples themselves are added by load_tests."""

    def test_every_public_name_has_one(self):
        self.assertEqual(jibrufath.__all__, sorted(jibrufath.__all__))
        for name in jibrufath.__all__:
            self.assertIn(">>>", getattr(jibrufath, name).__doc__, name)

    def test_no_public_name_is_left_out(self):
        own = {name for name, thing in vars(jibrufath).items() if getattr(thing, "__module__", "") == "jibrufath"}
        self.assertEqual({name for name in own if not name.startswith("_")} - {"F"}, set(jibrufath.__all__))

    def test_readme_has_one(self):
        self.assertEqual(len(readme_examples()), 1)


def readme_examples():
    """The examples for Python in README.md."""
    blocks = re.findall(r"```python\n(.*?)```", README.read_text(), re.DOTALL)
    parser = doctest.DocTestParser()
    return [doctest.DocTestCase(parser.get_doctest(block, {}, "README", str(README), 0)) for block in blocks]


def load_tests(loader, tests, pattern):
    tests.addTests(doctest.DocTestSuite(jibrufath))
    tests.addTests(readme_examples())
    return tests


class TheHeader(unittest.TestCase):
    """What the module repeats of the header and of the wrapper in Rust is the same there."""

    def test_version(self):
        numbers = [re.search(rf"VERSION_{part} (\d+)$", HEADER, re.M)[1] for part in ("MAJOR", "MINOR", "PATCH")]
        self.assertEqual(jibrufath.__version__, ".".join(numbers))

    def test_name_of_the_library(self):
        self.assertEqual(jibrufath._LIBRARY, NAME)

    def test_numbers(self):
        table = re.search(r"enum jibrufath_answer \{(.*?)\};", HEADER, re.DOTALL)[1]
        declared = {name: int(number) for name, number in re.findall(r"JIBRUFATH_(\w+) = (\d+)", table)}
        del declared["OK"]
        self.assertEqual({number.name: number.value for number in Number}, declared)

    def test_sentences(self):
        table = (ROOT / "rust" / "jibrufath" / "src" / "refusal.rs").read_text()
        for number in Number:
            self.assertIn(f'"{number.meaning}"', table)

    def test_signatures(self):
        forms = [
            (r"(?:const )?uint8_t \*(\w+), uint64_t \1_len", "s"),
            (r"uint64_t \w+\[\d+\]", "c"),
            (r"uint64_t \w+", "n"),
            (r"uint8_t \w+", "b"),
        ]
        declared = {}
        for name, parameters in re.findall(r"^uint\d+_t jibrufath_(\w+)\((.*?)\);", HEADER, re.M | re.DOTALL):
            for form, letter in forms:
                parameters = re.sub(form, letter, parameters)
            declared[name] = re.sub(r"[,\s]", "", parameters)
        # A plan that is received is read out of the file.
        del declared["receive_plan"]
        self.assertEqual(jibrufath._SIGNATURES, declared)


class Field(unittest.TestCase):
    def test_products(self):
        for a in range(256):
            self.assertEqual([jibrufath.mul(a, b) for b in range(256)], [product(a, b) for b in range(256)])

    def test_inverses(self):
        self.assertIsNone(jibrufath.inverse(0))
        for a in range(1, 256):
            self.assertEqual(product(a, jibrufath.inverse(a)), 1)

    def test_powers(self):
        self.assertEqual([jibrufath.pow(i) for i in range(256)], POWERS)


class Cubes(unittest.TestCase):
    def test_sizes(self):
        rng = random.Random(1)
        for _ in range(100):
            shape = random_shape(rng, 255, 16)
            l1, l2, l3, w = shape
            self.assertEqual(shape.cells, l1 * l2 * l3)
            self.assertEqual(shape.cube_bytes, w * shape.cells)
            self.assertEqual(shape.capacity, w * (l1 - 2) * (l2 - 2) * (l3 - 2))
            self.assertEqual(shape.file_bytes, shape.capacity - 4)
            self.assertEqual(shape.pack_bytes, 17 + shape.cells * (3 + w))

    def test_encoded_cubes_have_right_lines(self):
        rng = random.Random(2)
        for _ in range(60):
            shape = random_shape(rng, 6, 8)
            data = rng.randbytes(shape.capacity)
            cube = jibrufath.encode(shape, data)
            self.assertTrue(all(is_right(shape, cube, line) for line in all_lines(shape)), shape)
            in_place = b"".join(cube[shape.w * cell:][:shape.w] for cell in data_cells(shape))
            self.assertEqual(in_place, data)
            self.assertEqual(jibrufath.extract(shape, cube), data)
            self.assertIs(jibrufath.is_code_cube(shape, cube), True)
            wrong = bytearray(cube)
            wrong[rng.randrange(len(wrong))] ^= rng.randint(1, 255)
            self.assertIs(jibrufath.is_code_cube(shape, wrong), False)

    def test_fill(self):
        rng = random.Random(3)
        left_over = 0
        for _ in range(300):
            shape = random_shape(rng, 6, 4)
            cube = jibrufath.encode(shape, rng.randbytes(shape.capacity))
            lost = rng.sample(range(shape.cells), rng.randint(0, shape.cells))
            # Known cells have flag 0 or 2, and keep it.
            received, flags = bytearray(cube), bytearray(rng.choices((0, 2), k=shape.cells))
            for cell in lost:
                received[shape.w * cell:shape.w * (cell + 1)] = rng.randbytes(shape.w)
                flags[cell] = 1
            left = peel(shape, lost)
            filled = bytes(cell in left if flag == 1 else flag for cell, flag in enumerate(flags))
            self.assertEqual(jibrufath.fill(shape, received, flags), len(left))
            self.assertEqual(flags, filled)
            for cell in range(shape.cells):
                place = slice(shape.w * cell, shape.w * (cell + 1))
                self.assertEqual(received[place], bytes(shape.w) if cell in left else cube[place])
            left_over += bool(left)
        self.assertTrue(30 < left_over < 270, left_over)

    def test_fill_refused(self):
        shape = Shape(3, 3, 3, 1)
        cube, flags = bytearray(range(27)), bytearray([1] + 26 * [0])
        refusal = refused(self, lambda: jibrufath.fill(shape, cube, flags))
        self.assertEqual(refusal.number, Number.CONTRADICTION)
        self.assertEqual((cube, flags), (bytes([0, *range(1, 27)]), bytes([1] + 26 * [0])))

    def test_scan(self):
        rng = random.Random(4)
        for _ in range(30):
            shape = random_shape(rng)
            flags = bytes(rng.choices((0, 1), (2, 1), k=shape.cells))
            for axis in (1, 2, 3):
                for number, line in enumerate(lines(shape, axis)):
                    places = [i + 1 for i, cell in enumerate(line) if flags[cell]]
                    read = places[2] if len(places) > 2 else len(line)
                    self.assertEqual(jibrufath.scan(shape, flags, axis, number), (min(len(places), 3), read))

    def test_mend(self):
        rng = random.Random(5)
        for _ in range(100):
            shape = random_shape(rng)
            cube = jibrufath.encode(shape, rng.randbytes(shape.capacity))
            damaged = bytearray(cube)
            damaged[rng.randrange(len(cube))] ^= rng.randint(1, 255)
            before = bytes(damaged)
            self.assertEqual(jibrufath.mend(shape, damaged), cube)
            self.assertEqual(jibrufath.mend(shape, damaged, bytes(shape.cells)), cube)
            self.assertEqual(damaged, before)
            self.assertIsNone(jibrufath.mend_axis(shape, damaged, rng.randint(1, 3)))
            self.assertEqual(damaged, cube)


class Packs(unittest.TestCase):
    def test_round_trip_with_losses(self):
        rng = random.Random(6)
        files = 0
        for _ in range(1_000):
            shape = random_shape(rng, 6)
            file = random_file(rng, shape)
            pack = jibrufath.write(shape, file)
            self.assertEqual(len(pack), shape.pack_bytes)
            sent = list(jibrufath.packets(pack))
            heard = rng.choices(sent, k=rng.randint(0, len(sent)))
            air = jibrufath.air_pack(shape, heard)
            self.assertEqual(list(jibrufath.packets(air)), heard)
            self.check(shape, file, heard, jibrufath.receive(air, limit=1 << 30))
            files += not peel(shape, lost_of(shape, heard))
        self.assertTrue(300 < files < 900, files)

    def check(self, shape, file, heard, reception):
        left = peel(shape, lost_of(shape, heard))
        self.assertEqual(reception.file, None if left else file)
        self.assertEqual(reception.left, len(left))
        self.assertEqual([cell_number(shape, *cell) for cell in reception.missing], sorted(left))
        self.assertEqual(reception.flags, bytes(cell in left for cell in range(shape.cells)))
        self.assertEqual(reception.packets, len(heard))
        self.assertEqual(reception.repeats, len(heard) - len({cell for cell, _ in heard}))
        self.assertEqual(reception.conflicts, 0)
        self.assertEqual(reception.shape, shape)

    def test_a_written_pack(self):
        shape = Shape(4, 3, 5, 6)
        pack = jibrufath.write(shape, b"a file")
        self.assertEqual(pack[:17], struct.pack("<IBBBHII", 5, *shape, 0, shape.cells))
        cube = jibrufath.encode(shape, (struct.pack("<I", 6) + b"a file").ljust(shape.capacity, b"\0"))
        sent = [((a, b, c), cube[6 * cell_number(shape, a, b, c):][:6])
                for c, b, a in itertools.product(range(5), range(3), range(4))]
        self.assertEqual(list(jibrufath.packets(pack)), sent)
        self.assertEqual(jibrufath.air_pack(shape, sent), pack)

    def test_unsent_cells(self):
        """Data cells from the one that `used` numbers on are 00h, known and in no packet; the rest is as without them."""
        rng = random.Random(8)
        files = 0
        for _ in range(500):
            shape = random_shape(rng, 6)
            used = rng.randint(shape.used_by(0), shape.capacity // shape.w)
            file = rng.randbytes(rng.randint(0, used * shape.w - 4))
            unsent = data_cells(shape)[used:]
            pack = jibrufath.write(shape, file, used)
            self.assertEqual(pack[:13], struct.pack("<IBBBHI", 9, *shape, used))
            sent = list(jibrufath.packets(pack))
            whole = jibrufath.packets(jibrufath.write(shape, file))
            self.assertEqual(sent, [item for item in whole if cell_number(shape, *item[0]) not in unsent])
            self.assertEqual(len(pack), 21 + len(sent) * (3 + shape.w))
            self.assertEqual(jibrufath.needs(pack)[5:], (len(pack), used))
            self.assertEqual(jibrufath.air_pack(shape, sent, used), pack)
            heard = rng.choices(sent, k=rng.randint(0, len(sent)))
            reception = jibrufath.receive(jibrufath.air_pack(shape, heard, used), limit=1 << 30)
            left = peel(shape, lost_of(shape, heard) - set(unsent))
            self.assertEqual(reception.file, None if left else file)
            self.assertEqual([cell_number(shape, *cell) for cell in reception.missing], sorted(left))
            flags = bytes(2 if cell in unsent else cell in left for cell in range(shape.cells))
            self.assertEqual(reception.flags, flags)
            files += not left
        self.assertTrue(100 < files < 450, files)

    def test_fewest_used_cells(self):
        shape = Shape(4, 5, 6, 3)
        for length in range(69):
            used = shape.used_by(length)
            self.assertEqual(jibrufath.receive(jibrufath.write(shape, bytes(length), used)).file, bytes(length))
            refusal = refused(self, lambda: jibrufath.write(shape, bytes(length), used - 1))
            self.assertEqual(refusal.number, Number.USED_CELLS)

    def test_stopping_set(self):
        shape = Shape(5, 6, 7, 8)
        sent = dict(jibrufath.packets(jibrufath.write(shape, b"a broadcast")))
        stopping = list(itertools.product((0, 2, 4), (1, 2, 5), (0, 3, 6)))
        heard = [(cell, data) for cell, data in sent.items() if cell not in stopping]
        reception = jibrufath.receive(jibrufath.air_pack(shape, heard))
        self.assertEqual((reception.file, reception.left), (None, 27))
        self.assertEqual(set(reception.missing), set(stopping))
        for cell in stopping:
            reception = jibrufath.receive(jibrufath.air_pack(shape, heard + [(cell, sent[cell])]))
            self.assertEqual((reception.file, reception.left, reception.missing), (b"a broadcast", 0, []))

    def test_copies_that_differ(self):
        shape = Shape(4, 4, 4, 3)
        sent = list(jibrufath.packets(jibrufath.write(shape, b"file")))
        damaged = [(cell, bytes(byte ^ 1 for byte in data)) for cell, data in sent[:26]]
        reception = jibrufath.receive(jibrufath.air_pack(shape, damaged + sent))
        self.assertEqual((reception.file, reception.repeats, reception.conflicts), (b"file", 26, 26))

    def test_buffer_that_is_used_again(self):
        shape = Shape(3, 3, 3, 5)
        pack = jibrufath.write(shape, b"8")

        def heard():
            buffer = bytearray(5)
            for cell, data in jibrufath.packets(pack):
                buffer[:] = data
                yield cell, buffer

        self.assertEqual(jibrufath.air_pack(shape, heard()), pack)

    def test_packets_that_name_no_cell(self):
        outside = changed(changed(PACK, 17, 255), 18, 128)
        self.assertEqual(next(jibrufath.packets(outside)), ((255, 128, 0), PACK[20:25]))

    def test_limit(self):
        air = jibrufath.air_pack(Shape(5, 4, 3, 16), [])
        self.assertEqual(jibrufath.receive(air, limit=1_112).left, 60)
        with self.assertRaises(Limit) as caught:
            jibrufath.receive(air, limit=1_111)
        self.assertEqual((caught.exception.bytes, caught.exception.limit), (1_112, 1_111))
        with self.assertRaises(Limit):
            jibrufath.receive_plan(air, 1_111)

    def test_huge_shapes(self):
        air = jibrufath.air_pack(Shape(255, 255, 255, 16), [])
        for call in (jibrufath.receive, jibrufath.receive_plan):
            with self.assertRaises(Limit) as caught:
                call(air)
            self.assertEqual((caught.exception.bytes, caught.exception.limit), (540_991_803, 1_048_576))
        # What is wrong with the pack comes before what it needs.
        self.assertEqual(refused(self, lambda: jibrufath.receive(air + b"\0")).number, Number.TRAILING_BYTES)

    def test_cut_packs(self):
        pack = jibrufath.write(Shape(3, 3, 3, 5), b"8")
        for length in range(len(pack)):
            for call in (jibrufath.receive, jibrufath.packets, jibrufath.to_text, jibrufath.receive_plan):
                self.assertEqual(refused(self, lambda: call(pack[:length])).number, Number.TRUNCATED)
        pack = jibrufath.write(Shape(4, 3, 3, 5), b"8", used=1)
        for length in range(len(pack)):
            for call in (jibrufath.receive, jibrufath.packets, jibrufath.receive_plan):
                self.assertEqual(refused(self, lambda: call(pack[:length])).number, Number.TRUNCATED)
            # A text has no place for the number of used data cells, so that its count is refused once it is there.
            expected = Number.TRUNCATED if length < 4 else Number.HEADER_COUNT
            self.assertEqual(refused(self, lambda: jibrufath.to_text(pack[:length])).number, expected)

    def test_hostile_packs(self):
        """Whatever the bytes are, a call gives an answer, or one of the two errors that it has."""
        rng = random.Random(7)
        pack = jibrufath.write(Shape(4, 3, 3, 7), b"any file")
        used = jibrufath.write(Shape(4, 3, 3, 14), b"any file", used=1)
        seen = set()
        for hostile in itertools.chain(self.hostile(rng, pack), self.hostile(rng, used)):
            for call in ("receive", "receive_plan", "to_text", "needs"):
                seen.add(kind(outcome(jibrufath, call, hostile)))
        self.assertLessEqual({"answer", "limit"}, seen)
        self.assertLessEqual({("refused", number) for number in (1, 2, 3, 6, 7, 8, 9, 10, 11, 13, 14, 18, 19)}, seen)

    def hostile(self, rng, pack):
        """Random bytes, a good pack with some of its first bytes changed, and short packs of any shape."""
        for _ in range(2_000):
            yield rng.randbytes(rng.randint(0, 60))
            changed = bytearray(pack)
            for place in rng.choices(range(40), k=rng.randint(1, 3)):
                changed[place] = rng.choice((0, 1, 3, 5, 255, rng.randrange(256)))
            yield changed
            yield struct.pack("<IBBBHII", 5, *rng.choices(range(256), k=3), rng.randint(0, 1_100), 0, 0)


def lost_of(shape, heard):
    """The numbers of the cells that did not come."""
    return set(range(shape.cells)) - {cell_number(shape, *cell) for cell, _ in heard}


class Texts(unittest.TestCase):
    def test_both_ways(self):
        rng = random.Random(8)
        for _ in range(200):
            shape = random_shape(rng, 5)
            sent = list(jibrufath.packets(jibrufath.write(shape, random_file(rng, shape))))
            heard = rng.choices(sent, k=rng.randint(0, 20))
            pack = jibrufath.air_pack(shape, heard)
            rows = [f"packet {a} {b} {c} {data.hex(' ')}\n" for (a, b, c), data in heard]
            text = "".join([f"shape {shape.l1} {shape.l2} {shape.l3} {shape.w}\n", *rows])
            self.assertEqual(jibrufath.to_text(pack), text)
            self.assertEqual(jibrufath.from_text(text), pack)
            self.assertEqual(jibrufath.from_text(text.encode()), pack)

    def test_lines_that_break_the_form(self):
        good = "shape 3 3 3 5\n" + "packet 0 0 0 01 00 00 00 08\n" * 2
        self.assertEqual(len(jibrufath.from_text(good)), 17 + 2 * 8)
        for text, line in [
            ("", 1),
            ("shape 3 3 3 5", 1),
            (good[:-1], 3),
            (good + "\n", 4),
            (good.replace("08", "0é8", 1), 2),
            (good + "\ud800\n", 4),
            (good.replace("\n", "\u2028", 1), 1),
            (good.replace("packet", "Packet"), 2),
        ]:
            refusal = refused(self, lambda: jibrufath.from_text(text))
            self.assertEqual((refusal.number, refusal.place), (Number.LINE, line), ascii(text))


class Plans(unittest.TestCase):
    def test_both_ways(self):
        rng = random.Random(9)
        for _ in range(300):
            plan = random_plan(rng)
            file = jibrufath.write_plan(plan)
            self.assertEqual(file, layout(plan)[0])
            self.assertEqual(jibrufath.read_plan(file), plan)

    def test_cut_plans(self):
        rng = random.Random(10)
        for _ in range(20):
            file, starts = layout(random_plan(rng))
            for length in range(len(file)):
                refusal = refused(self, lambda: jibrufath.read_plan(file[:length]))
                cut = max(start for start in starts if start <= length)
                self.assertEqual((refusal.number, refusal.place), (Number.ENTRY, cut))

    def test_received(self):
        rng = random.Random(11)
        shape = Shape(6, 6, 6, 8)
        shown = 0
        for _ in range(100):
            plan = random_plan(rng)
            sent = list(jibrufath.packets(jibrufath.write(shape, jibrufath.write_plan(plan))))
            heard = rng.sample(sent, rng.randint(40, 160))
            left = peel(shape, lost_of(shape, heard))
            reception = jibrufath.receive_plan(jibrufath.air_pack(shape, heard))
            self.assertEqual((reception.file, reception.left), (None if left else plan, len(left)))
            shown += not left
        self.assertTrue(20 < shown < 90, shown)

    def test_values_that_do_not_fit(self):
        for plan, text in [
            (Plan([0, 65_536]), "closure 1 is not a number of 16 bits"),
            (Plan([-1]), "closure 0 is not a number of 16 bits"),
            (Plan([7.0]), "closure 0 is not a number of 16 bits"),
            (Plan(["7"]), "closure 0 is not a number of 16 bits"),
            (Plan([7], [(7, 1), (7, 65_537)]), "fibre 1 is not two numbers of 16 bits"),
            (Plan([7], [(65_543, 1)]), "fibre 0 is not two numbers of 16 bits"),
            (Plan([7], [(7,)]), "fibre 0 is not two numbers of 16 bits"),
            (Plan([7], [7]), "fibre 0 is not two numbers of 16 bits"),
            (Plan([7], [(7, 1), (7, 2)], [(0, 1 + 2 ** 32)]), "splice 0 is not two numbers of 32 bits"),
            (Plan([7], [(7, 1), (7, 2)], [(-1, 1)]), "splice 0 is not two numbers of 32 bits"),
            (Plan([10 ** 5_000]), "closure 0 is not a number of 16 bits"),
        ]:
            with self.assertRaises(ValueError) as caught:
                jibrufath.write_plan(plan)
            self.assertEqual(str(caught.exception), text)


def layout(plan):
    """The bytes of a plan's file, and where its counts and entries begin."""
    pieces = [struct.pack("<I", len(plan.closures))] + [struct.pack("<H", number) for number in plan.closures]
    pieces += [struct.pack("<I", len(plan.fibres))] + [struct.pack("<HH", *fibre) for fibre in plan.fibres]
    pieces += [struct.pack("<I", len(plan.splices))] + [struct.pack("<II", *splice) for splice in plan.splices]
    return b"".join(pieces), [0, *itertools.accumulate(map(len, pieces))][:-1]


def refused(case, call):
    """The refusal that a call ends in."""
    with case.assertRaises(Refusal) as caught:
        call()
    return caught.exception


SMALL = Shape(3, 3, 3, 5)
LONGER = Shape(4, 3, 3, 5)
PACK = jibrufath.write(SMALL, b"8")
CUBE = jibrufath.encode(SMALL, b"\1\0\0\0008")


def changed(data, place, byte):
    """The same bytes but for one."""
    return data[:place] + bytes([byte]) + data[place + 1:]


def no_file():
    """An air pack whose data string begins with a length that is too large."""
    cube = jibrufath.encode(SMALL, b"\2\0\0\0008")
    cells = itertools.product(range(3), range(3), range(3))
    return jibrufath.air_pack(SMALL, [((a, b, c), cube[5 * i:][:5]) for i, (c, b, a) in enumerate(cells)])


REFUSED = [
    (1, None, lambda: Shape(2, 3, 3, 1).cells),
    (1, None, lambda: Shape(3, 256, 3, 1).cube_bytes),
    (1, None, lambda: Shape(3, 3, 2 ** 64 - 1, 1).capacity),
    (1, None, lambda: Shape(0, 3, 3, 0).file_bytes),
    (1, None, lambda: jibrufath.mend_axis(SMALL, bytearray(CUBE), 0)),
    (1, None, lambda: jibrufath.mend_axis(SMALL, bytearray(CUBE), 4)),
    (1, None, lambda: jibrufath.scan(SMALL, bytes(27), 4, 0)),
    (1, None, lambda: jibrufath.scan(SMALL, bytes(27), 3, 9)),
    (1, None, lambda: jibrufath.write(Shape(3, 3, 300, 5), b"")),
    (1, None, lambda: jibrufath.air_pack(Shape(3, 3, 300, 5), [])),
    (1, None, lambda: jibrufath.receive(changed(PACK, 4, 2))),
    (1, None, lambda: jibrufath.from_text("shape 3 3 259 5\n")),
    (2, None, lambda: Shape(3, 3, 3, 0).pack_bytes),
    (2, None, lambda: jibrufath.encode(Shape(3, 3, 3, 1_025), b"")),
    (2, None, lambda: jibrufath.needs(changed(PACK, 8, 5))),
    (3, None, lambda: Shape(255, 255, 255, 17).cells),
    (3, None, lambda: jibrufath.mend(Shape(255, 255, 255, 17), b"")),
    (4, None, lambda: jibrufath.encode(SMALL, bytes(4))),
    (4, None, lambda: jibrufath.encode(SMALL, bytes(6))),
    (4, None, lambda: jibrufath.extract(SMALL, CUBE[1:])),
    (4, None, lambda: jibrufath.extract(SMALL, CUBE + b"\0")),
    (4, None, lambda: jibrufath.is_code_cube(SMALL, CUBE[1:])),
    (4, None, lambda: jibrufath.is_code_cube(SMALL, b"")),
    (4, None, lambda: jibrufath.fill(SMALL, bytearray(134), bytearray(27))),
    (4, None, lambda: jibrufath.fill(SMALL, bytearray(135), bytearray(28))),
    (4, None, lambda: jibrufath.fill(SMALL, bytearray(), bytearray())),
    (4, None, lambda: jibrufath.scan(SMALL, bytes(26), 1, 0)),
    (4, None, lambda: jibrufath.mend(SMALL, CUBE[1:])),
    (4, None, lambda: jibrufath.mend(SMALL, CUBE, bytes(26))),
    (4, None, lambda: jibrufath.mend_axis(SMALL, bytearray(136), 1)),
    (4, None, lambda: jibrufath.air_pack(SMALL, [((0, 0, 0), bytes(4))])),
    (5, None, lambda: jibrufath.fill(SMALL, bytearray(CUBE), bytearray(26) + b"\3")),
    (5, None, lambda: jibrufath.mend(SMALL, CUBE, bytes(26) + b"\3")),
    (6, None, lambda: jibrufath.needs(b"")),
    (6, None, lambda: jibrufath.needs(PACK[:8])),
    (7, None, lambda: jibrufath.receive(changed(PACK, 0, 6))),
    (7, None, lambda: jibrufath.to_text(jibrufath.write(SMALL, b"8", used=1))),
    (8, None, lambda: jibrufath.receive(PACK + b"\0")),
    (8, None, lambda: jibrufath.packets(PACK + b"\0")),
    (8, None, lambda: jibrufath.to_text(PACK + b"\0")),
    (9, None, lambda: jibrufath.receive(changed(PACK, 9, 1))),
    (10, None, lambda: Shape(3, 3, 3, 3).file_bytes),
    (10, None, lambda: jibrufath.write(SMALL, b"88")),
    (10, None, lambda: jibrufath.write(Shape(3, 3, 3, 3), b"")),
    (10, None, lambda: jibrufath.air_pack(Shape(3, 3, 3, 3), [])),
    (10, None, lambda: jibrufath.needs(changed(PACK, 7, 3))),
    (11, 0, lambda: jibrufath.receive(changed(PACK, 17, 3))),
    (11, 26, lambda: jibrufath.receive(changed(PACK, len(PACK) - 8, 255))),
    (11, 26, lambda: jibrufath.to_text(changed(PACK, len(PACK) - 6, 3))),
    (11, 1, lambda: jibrufath.from_text("shape 3 3 3 4\npacket 2 2 2 00 00 00 00\npacket 256 0 0 00 00 00 00\n")),
    (11, 1, lambda: jibrufath.air_pack(SMALL, [((2, 2, 2), bytes(5)), ((0, 3, 0), bytes(5))])),
    (11, 0, lambda: jibrufath.air_pack(SMALL, [((0, 0, -1), bytes(5))])),
    (11, 0, lambda: jibrufath.air_pack(SMALL, [((256, 0, 0), bytes(5))])),
    (11, 1, lambda: jibrufath.air_pack(LONGER, [((0, 0, 0), bytes(5)), ((1, 0, 0), bytes(5))], used=1)),
    (11, 0, lambda: jibrufath.receive(changed(jibrufath.write(LONGER, b"", used=1), 21, 1))),
    (13, None, lambda: jibrufath.receive(changed(PACK, len(PACK) - 1, PACK[-1] ^ 1))),
    (13, None, lambda: jibrufath.fill(SMALL, bytearray(range(135)), bytearray(27))),
    (14, None, lambda: jibrufath.receive(no_file())),
    (14, None, lambda: jibrufath.receive_plan(no_file())),
    (15, None, lambda: jibrufath.mend(SMALL, CUBE, b"\1\2" + bytes(25))),
    (16, None, lambda: jibrufath.mend(Shape(4, 4, 4, 1), bytes(range(64)))),
    (17, 1, lambda: jibrufath.from_text("")),
    (17, 2, lambda: jibrufath.from_text("shape 3 3 3 5\npacket 0 0 0 01\n")),
    (18, 0, lambda: jibrufath.read_plan(b"")),
    (18, 6, lambda: jibrufath.write_plan(Plan([8, 7]))),
    (18, 22, lambda: jibrufath.write_plan(Plan([7], [(7, 1), (7, 2)], [(1, 1)]))),
    (18, 12, lambda: jibrufath.read_plan(bytes(13))),
    (18, 0, lambda: jibrufath.receive_plan(PACK)),
    (18, 4, lambda: jibrufath.receive_plan(jibrufath.write(Shape(3, 3, 3, 9), b"\1\0\0\0\7"))),
    (19, None, lambda: jibrufath.write(LONGER, b"", used=0)),
    (19, None, lambda: jibrufath.write(LONGER, b"", used=3)),
    (19, None, lambda: jibrufath.write(LONGER, b"", used=2 ** 32 + 1)),
    (19, None, lambda: jibrufath.write(LONGER, b"88", used=1)),
    (19, None, lambda: jibrufath.air_pack(LONGER, [], used=2 ** 64 - 1)),
    (19, None, lambda: jibrufath.receive(changed(jibrufath.write(LONGER, b"", used=1), 12, 1))),
]


class Refusals(unittest.TestCase):
    def test_numbers_and_places(self):
        for index, (number, place, call) in enumerate(REFUSED):
            with self.subTest(index=index, number=number):
                refusal = refused(self, call)
                self.assertEqual((refusal.number, refusal.place), (number, place))
                self.assertTrue(str(refusal).startswith(f"refused {number}: {refusal.number.meaning}"))

    def test_every_number_is_tried(self):
        self.assertEqual({number for number, _, _ in REFUSED}, set(Number))

    def test_texts(self):
        for refusal, text in [
            (Refusal(11, 7), "refused 11: a packet names a cell outside the cube or an unsent one, packet 7"),
            (Refusal(17, 3), "refused 17: a line of the text breaks the form, line 3"),
            (Refusal(16, 0), "refused 16: what mending leaves is not a code cube"),
        ]:
            self.assertEqual(str(refusal), text)
        self.assertEqual(str(Refusal(18, 0))[-10:], ", offset 0")

    def test_they_are_what_callers_catch(self):
        self.assertIsInstance(Refusal(1), ValueError)
        self.assertIsInstance(Limit(2, 1), MemoryError)

    def test_they_pass_between_processes(self):
        for error in (Refusal(18, 30), Refusal(4), Limit(2, 1)):
            copy = pickle.loads(pickle.dumps(error))
            self.assertEqual((type(copy), vars(copy), str(copy)), (type(error), vars(error), str(error)))


class Arguments(unittest.TestCase):
    """What is given to a call reaches the library as it is, or not at all."""

    def numbers(self):
        """Every number that goes to the library without a sign, each as a call that takes it."""
        yield from (lambda n: Shape(n, 3, 3, 5).cells, lambda n: Shape(3, n, 3, 5).cube_bytes)
        yield from (lambda n: Shape(3, 3, n, 5).capacity, lambda n: Shape(3, 3, 3, n).pack_bytes)
        yield lambda n: Shape(3, n, 3, 5).file_bytes
        yield lambda n: jibrufath.write(Shape(n, 3, 3, 5), b"")
        yield lambda n: jibrufath.air_pack(Shape(3, 3, 3, n), [])
        yield SMALL.used_by
        yield lambda n: jibrufath.encode(Shape(3, n, 3, 5), bytes(5))
        yield lambda n: jibrufath.extract(Shape(3, n, 3, 5), CUBE)
        yield lambda n: jibrufath.is_code_cube(Shape(3, n, 3, 5), CUBE)
        yield lambda n: jibrufath.fill(Shape(n, 3, 3, 5), bytearray(CUBE), bytearray(27))
        yield lambda n: jibrufath.mend(Shape(n, 3, 3, 5), CUBE)
        yield lambda n: jibrufath.mend_axis(Shape(n, 3, 3, 5), bytearray(CUBE), 1)
        yield lambda n: jibrufath.mend_axis(SMALL, bytearray(CUBE), n)
        yield lambda n: jibrufath.scan(SMALL, bytes(27), n, 0)
        yield lambda n: jibrufath.scan(SMALL, bytes(27), 1, n)
        yield from (lambda n: jibrufath.mul(n, 1), lambda n: jibrufath.mul(1, n), jibrufath.inverse, jibrufath.pow)

    def test_numbers_out_of_range(self):
        for call in self.numbers():
            for number in (-1, -2 ** 64 + 3, 2 ** 64, 2 ** 64 + 3, 10 ** 5_000):
                with self.assertRaises(ValueError) as caught:
                    call(number)
                self.assertNotIsInstance(caught.exception, Refusal)
                self.assertRegex(str(caught.exception), r"^\w+ is negative or has more than (64|8) bits$")
        for call in (jibrufath.inverse, jibrufath.pow):
            self.assertRaises(ValueError, call, 256)

    def test_numbers_that_are_none(self):
        for call in self.numbers():
            for number in (3.0, "3", None, b"3"):
                self.assertRaises(TypeError, call, number)

    def test_coordinates_that_are_none(self):
        for number in (1.0, "1", None):
            self.assertRaises(TypeError, jibrufath.air_pack, SMALL, [((number, 0, 0), bytes(5))])

    def test_bytes_like_objects(self):
        file, shape = b"a file of some words", Shape(5, 4, 3, 16)
        pack = jibrufath.write(shape, file)
        self.assertEqual(jibrufath.write(shape, array.array("H", file)), pack)
        with mmap.mmap(-1, len(file)) as mapped:
            mapped[:] = file
            self.assertEqual(jibrufath.write(shape, mapped), pack)
        for like in (bytearray, memoryview, Longer, every_second, lambda data: every_second(data, bytearray),
                     lambda data: array.array("B", data), lambda data: (ctypes.c_ubyte * len(data))(*data)):
            self.assertEqual(jibrufath.write(shape, like(file)), pack)
            self.assertEqual(jibrufath.receive(like(pack)).file, file)
            self.assertEqual(list(jibrufath.packets(like(pack))), list(jibrufath.packets(pack)))
            self.assertEqual(jibrufath.from_text(jibrufath.to_text(like(pack))), pack)
            self.assertEqual(jibrufath.default_limit(like(bytes(40_000))), 1_120_000)

    def test_no_bytes(self):
        for call in (lambda data: jibrufath.write(SMALL, data), jibrufath.receive, jibrufath.needs, jibrufath.packets,
                     jibrufath.to_text, jibrufath.read_plan, lambda data: jibrufath.encode(SMALL, data),
                     lambda data: jibrufath.fill(SMALL, data, bytearray(27)),
                     lambda data: jibrufath.air_pack(SMALL, [((0, 0, 0), data)])):
            for data in ("12345", 5, None, [1, 2, 3, 4, 5]):
                self.assertRaises(TypeError, call, data)

    def test_read_only_memory(self):
        cube, flags = bytearray(CUBE), bytearray(27)
        with mock.patch.dict(jibrufath._calls, fill=never, mend_axis=never):
            for read_only in (bytes, lambda data: memoryview(data).toreadonly()):
                for call in (lambda: jibrufath.fill(SMALL, read_only(cube), flags),
                             lambda: jibrufath.fill(SMALL, cube, read_only(flags)),
                             lambda: jibrufath.mend_axis(SMALL, read_only(cube), 1)):
                    self.assertRaisesRegex(TypeError, "read-only", call)

    def test_memory_that_is_not_contiguous(self):
        with mock.patch.dict(jibrufath._calls, fill=never, mend_axis=never):
            gaps = memoryview(bytearray(270))[::2]
            for call in (lambda: jibrufath.fill(SMALL, gaps, bytearray(27)),
                         lambda: jibrufath.mend_axis(SMALL, gaps, 1)):
                self.assertRaisesRegex(TypeError, "cube is not contiguous", call)

    def test_memory_that_overlaps(self):
        both = bytearray(CUBE + bytes(27))
        view = memoryview(both)
        with mock.patch.dict(jibrufath._calls, fill=never):
            for cube, flags in [(both, both), (view[:135], view[134:161]), (view[:135], view[0:27]),
                                (view[:135], view[50:77]), (view[27:], view[1:28])]:
                self.assertRaisesRegex(ValueError, "overlap", jibrufath.fill, SMALL, cube, flags)
        self.assertEqual(jibrufath.fill(SMALL, view[:135], view[135:]), 0)
        behind = memoryview(bytearray(27) + CUBE)
        self.assertEqual(jibrufath.fill(SMALL, behind[27:], behind[:27]), 0)

    def test_memory_in_place(self):
        """Of a larger buffer only the part that is lent changes."""
        memory = bytearray(b"\xAA" * 3 + bytes(130) + CUBE[130:] + b"\xAA" * 3)
        flags = array.array("B", [1] * 26 + [0])
        self.assertEqual(jibrufath.fill(SMALL, memoryview(memory)[3:138], flags), 0)
        self.assertEqual(memory, b"\xAA" * 3 + CUBE + b"\xAA" * 3)
        self.assertEqual(flags.tobytes(), bytes(27))

    def test_lent_memory_is_held(self):
        """During a call no lent bytes can be resized, and after it they can."""
        cube, flags, pack = bytearray(CUBE), bytearray(27), bytearray(PACK)
        held = []

        def resizing(*arguments):
            for memory in (cube, flags, pack):
                try:
                    memory.append(0)
                    memory.pop()
                except BufferError:
                    held.append(memory)
            return 0

        with mock.patch.dict(jibrufath._calls, fill=resizing, needs=resizing):
            jibrufath.fill(SMALL, cube, flags)
            jibrufath.needs(pack)
        self.assertEqual([id(memory) for memory in held], [id(cube), id(flags), id(pack)])
        for memory in (cube, flags, pack):
            memory.append(0)

    def test_what_is_given_back_is_kept(self):
        """Bytes that were given out do not change by later calls, one byte long or none."""
        shape = Shape(3, 3, 3, 1)
        ones = [jibrufath.extract(shape, jibrufath.encode(shape, bytes([byte]))) for byte in range(256)]
        self.assertEqual(ones, [bytes([byte]) for byte in range(256)])
        self.assertEqual(b"".join(ones), bytes(range(256)))
        self.assertEqual(jibrufath.receive(jibrufath.write(Shape(3, 3, 3, 4), b"")).file, b"")


class Longer(bytes):
    """Bytes that say that they are more than they are."""

    def __len__(self):
        return super().__len__() + 1_000


def every_second(data, kind=bytes):
    """A view of these bytes that is not contiguous."""
    return memoryview(kind(byte for pair in zip(data, data) for byte in pair))[::2]


def never(*arguments):
    raise AssertionError("the library is called")


class Library(unittest.TestCase):
    PRINT = "import jibrufath; print(jibrufath.receive(jibrufath.write(jibrufath.Shape(3, 3, 3, 5), b'8')).file)"

    def setUp(self):
        folder = tempfile.TemporaryDirectory()
        self.addCleanup(folder.cleanup)
        self.folder = pathlib.Path(folder.name)
        shutil.copy(MODULE, self.folder)
        self.library = pathlib.Path(os.environ["JIBRUFATH_LIBRARY"]).absolute()

    def test_named(self):
        self.assertEqual(run(self.PRINT, JIBRUFATH_LIBRARY=str(self.library)).stdout, "b'8'\n")
        relative = os.path.relpath(self.library, self.folder)
        self.assertEqual(run(self.PRINT, self.folder, JIBRUFATH_LIBRARY=relative).stdout, "b'8'\n")

    def test_named_without_a_folder(self):
        shutil.copy(self.library, self.folder / "another.so")
        self.assertEqual(run(self.PRINT, self.folder, JIBRUFATH_LIBRARY="another.so").stdout, "b'8'\n")

    def test_beside_the_module(self):
        shutil.copy(self.library, self.folder / NAME)
        self.assertEqual(run(self.PRINT, self.folder).stdout, "b'8'\n")

    def test_by_the_loader(self):
        place = self.folder / "lib"
        place.mkdir()
        shutil.copy(self.library, place / NAME)
        self.assertEqual(run(self.PRINT, self.folder, LD_LIBRARY_PATH=str(place)).stdout, "b'8'\n")

    def test_installed(self):
        modules = self.folder / "lib" / "python3" / "dist-packages"
        modules.mkdir(parents=True)
        shutil.copy(MODULE, modules)
        shutil.copy(self.library, self.folder / "lib" / NAME)
        self.assertEqual(run(self.PRINT, modules).stdout, "b'8'\n")

    def test_missing(self):
        wrong = "/nowhere/" + NAME
        self.check_missing(run(self.PRINT, JIBRUFATH_LIBRARY=wrong), wrong)

    def test_missing_where_the_loader_looks(self):
        """What the system may have besides does not matter: the loader ends at an empty file."""
        (self.folder / "lib").mkdir()
        (self.folder / "lib" / NAME).touch()
        ended = run(self.PRINT, self.folder, LD_LIBRARY_PATH=str(self.folder / "lib"))
        self.check_missing(ended, f"{NAME}: file too short")

    def test_another_library(self):
        another = importlib.util.find_spec("_ctypes").origin
        self.check_missing(run(self.PRINT, JIBRUFATH_LIBRARY=another), "undefined symbol: jibrufath_cells")

    def check_missing(self, ended, said):
        self.assertEqual((ended.returncode, ended.stdout), (1, ""))
        for words in ("ImportError: ", said, "JIBRUFATH_LIBRARY", NAME, "jibrufath.py", "targets/build x86-64"):
            self.assertIn(words, ended.stderr)


def second_module(library):
    """Another copy of the module, over another library."""
    spec = importlib.util.spec_from_file_location("jibrufath_second", MODULE)
    module = importlib.util.module_from_spec(spec)
    with mock.patch.dict(sys.modules, jibrufath_second=module), \
            mock.patch.dict(os.environ, JIBRUFATH_LIBRARY=str(library)):
        spec.loader.exec_module(module)
    return module


def has_avx2():
    info = pathlib.Path("/proc/cpuinfo")
    return info.exists() and " avx2 " in info.read_text()


@unittest.skipUnless(has_avx2(), "the processor has no AVX2")
@unittest.skipUnless(WITH_AVX2.exists(), "targets/build has not made the library for x86-64-v3")
class WithAvx2(unittest.TestCase):
    def test_same_answers(self):
        second = second_module(WITH_AVX2)
        maps = pathlib.Path("/proc/self/maps").read_text()
        for loaded in (os.environ["JIBRUFATH_LIBRARY"], WITH_AVX2):
            self.assertIn(os.path.realpath(loaded), maps)
        rng = random.Random(12)
        for _ in range(200):
            shape = random_shape(rng, 9, 70)
            for call, *arguments in self.calls(rng, shape):
                given = [[bytearray(item) if type(item) is bytearray else item for item in arguments] for _ in "12"]
                came = [plain(outcome(module, call, *items)) for module, items in zip((jibrufath, second), given)]
                self.assertEqual(came[0], came[1], (call, shape))
                self.assertEqual(given[0], given[1], (call, shape))

    def calls(self, rng, shape):
        """Calls with their arguments, which often refuse."""
        data = rng.randbytes(shape.capacity)
        cube = bytearray(jibrufath.encode(shape, data))
        cube[rng.randrange(len(cube))] ^= rng.choice((0, 1))
        flags = bytearray(rng.choices((0, 1, 2), (2, rng.choice((0, 1, 2)), 1), k=shape.cells))
        file = random_file(rng, shape)
        sent = list(jibrufath.packets(jibrufath.write(shape, file)))
        air = jibrufath.air_pack(shape, rng.choices(sent, k=rng.randint(0, 3 * len(sent))))
        yield "encode", shape, data
        yield "extract", shape, cube
        yield "is_code_cube", shape, cube
        yield "fill", shape, cube, flags
        yield "mend", shape, cube
        yield "mend_axis", shape, cube, rng.randint(1, 3)
        yield "write", shape, file
        yield "write", shape, file, shape.used_by(len(file))
        yield "receive", air
        yield "receive", jibrufath.write(shape, file, shape.used_by(len(file)))
        yield "receive_plan", air
        yield "to_text", air
        yield "from_text", jibrufath.to_text(air)


def plain(came):
    """An outcome without the classes of its module."""
    return vars(came) if hasattr(came, "flags") else came


if __name__ == "__main__":
    unittest.main()
