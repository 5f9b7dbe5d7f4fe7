#!/usr/bin/env python3
"""The Python module at its limits: every function, lists in every form, what is refused and what never gets so far.

    tests/python/limits.py [WORD..]      words go to unittest
"""
import copy
import ctypes
import doctest
import mmap
import importlib.util
import math
import os
import pickle
import subprocess
import sys
import tempfile
import threading
import unittest
from array import array
from decimal import Decimal
from fractions import Fraction
from pathlib import Path

ROOT = Path(__file__).resolve().parents[2]
sys.path[:0] = [str(ROOT / "python"), str(ROOT / "tests" / "second")]
import model
import razovinto
import sample
from razovinto import OVERFLOWED, Block, Extent, Field, Found, Operation, Range, Refusal, Refused, Row, Run, State

try:
    import numpy
except ImportError:
    numpy = None

MOST = 2**64 - 1
LOW, HIGH = -(2**63), 2**63 - 1
MODULE = ROOT / "python" / "razovinto.py"
with_numpy = unittest.skipUnless(numpy, "numpy isn't here")


def block_of(number, *values):
    return model.make_block(number, [model.OVERFLOWED if value is OVERFLOWED else value for value in values])


class Case(unittest.TestCase):
    def refused(self, number, place, function, *given, **named):
        """A refusal with its number, place and words; gives the exception."""
        with self.assertRaises(Refused) as seen:
            function(*given, **named)
        error = seen.exception
        self.assertEqual((error.number, error.place), (number, place))
        self.assertEqual(error.words, razovinto.refusal_text(number))
        self.assertIn(error.words, str(error))
        return error

    def wrong(self, kind, words, function, *given, **named):
        """An error of Python's own, which names what was wrong."""
        with self.assertRaises(kind) as seen:
            function(*given, **named)
        self.assertIn(words, str(seen.exception))


class Operations(Case):
    def test_sums_and_products(self):
        self.assertEqual(razovinto.sum(MOST - 1, 1), MOST)
        self.assertIs(razovinto.sum(MOST, 1), OVERFLOWED)
        self.assertIs(razovinto.sum(MOST, MOST), OVERFLOWED)
        self.assertEqual(razovinto.product(2**32, 2**32 - 1), 2**64 - 2**32)
        self.assertIs(razovinto.product(2**32, 2**32), OVERFLOWED)
        self.assertEqual(razovinto.product(MOST, 0), 0)

    def test_quotients(self):
        self.assertEqual((razovinto.quotient(MOST, 10), razovinto.remainder(MOST, 10)), divmod(MOST, 10))
        self.refused(1, 0, razovinto.quotient, 7, 0)
        self.refused(1, 0, razovinto.remainder, 0, 0)

    def test_powers(self):
        self.assertEqual(razovinto.power(2, 63), 2**63)
        self.assertIs(razovinto.power(2, 64), OVERFLOWED)
        self.assertEqual(razovinto.power(0, 0), 1)
        self.assertEqual(razovinto.logarithm(2, MOST), 63)
        self.assertEqual(razovinto.logarithm(10, 0), 0)
        self.refused(2, 0, razovinto.logarithm, 1, 5)
        self.assertIs(razovinto.power_fits(2, 63), True)
        self.assertIs(razovinto.power_fits(2, 64), False)
        self.assertIs(razovinto.power_fits(1, MOST), True)

    def test_signed(self):
        self.assertEqual((razovinto.signed_quotient(-7, 2), razovinto.signed_remainder(-7, 2)), (-3, -1))
        self.assertEqual(razovinto.signed_quotient(LOW, 1), LOW)
        self.assertEqual(razovinto.signed_remainder(LOW, -1), 0)
        self.refused(4, 0, razovinto.signed_quotient, LOW, -1)
        self.refused(1, 0, razovinto.signed_quotient, LOW, 0)
        self.refused(1, 0, razovinto.signed_remainder, 5, 0)

    def test_numbers_outside_64_bits(self):
        parameters = dict.fromkeys(("sum", "product", "quotient", "remainder"), ("left", "right"))
        parameters.update(power=("base", "exponent"), logarithm=("base", "argument"), power_fits=("base", "exponent"))
        for name, (first, second) in parameters.items():
            for number in (-1, MOST + 1, LOW, 10**6000):
                self.wrong(OverflowError, f"{first} is ", getattr(razovinto, name), number, 1)
                self.wrong(OverflowError, f"{second} is ", getattr(razovinto, name), 1, number)
        self.wrong(OverflowError, "right is 18446744073709551616, and must be from 0 to", razovinto.sum, 1, MOST + 1)
        for function in (razovinto.signed_quotient, razovinto.signed_remainder):
            self.wrong(OverflowError, "left is", function, LOW - 1, 1)
            self.wrong(OverflowError, "left is", function, MOST, 1)
            self.wrong(OverflowError, "right is", function, 1, HIGH + 1)

    def test_no_numbers(self):
        for given in (1.0, "1", None, b"1", [1], 1j, OVERFLOWED):
            for name in ("sum", "quotient", "power", "power_fits", "signed_quotient"):
                self.wrong(TypeError, " is ", getattr(razovinto, name), given, 1)
                self.wrong(TypeError, " is ", getattr(razovinto, name), 1, given)
        self.wrong(TypeError, "left is overflowed", razovinto.sum, OVERFLOWED, 1)

    @with_numpy
    def test_numbers_of_numpy(self):
        self.assertIs(razovinto.sum(numpy.uint64(MOST), numpy.int8(1)), OVERFLOWED)
        self.wrong(OverflowError, "left is -1", razovinto.sum, numpy.int64(-1), 1)
        self.wrong(TypeError, "left is", razovinto.sum, numpy.float64(1), 1)
        self.assertIs(type(razovinto.sum(numpy.uint64(1), 1)), int)


class OverflowedValue(Case):
    def test_one_value(self):
        self.assertEqual(repr(OVERFLOWED), "OVERFLOWED")
        self.assertIs(razovinto.Overflowed(), OVERFLOWED)
        self.assertIs(copy.copy(OVERFLOWED), OVERFLOWED)
        self.assertIs(copy.deepcopy([OVERFLOWED])[0], OVERFLOWED)
        for protocol in range(pickle.HIGHEST_PROTOCOL + 1):
            self.assertIs(pickle.loads(pickle.dumps(OVERFLOWED, protocol)), OVERFLOWED)
            self.assertEqual(pickle.loads(pickle.dumps(Run(OVERFLOWED, 3), protocol)), Run(OVERFLOWED, 3))

    def test_equal_to_itself_alone(self):
        self.assertTrue(OVERFLOWED == OVERFLOWED)
        for other in (0, 1, MOST, 2**64, None, False, True, float("nan"), float("inf"), "OVERFLOWED"):
            self.assertFalse(OVERFLOWED == other)
            self.assertTrue(other != OVERFLOWED)
        self.assertEqual({OVERFLOWED: 1}[OVERFLOWED], 1)

    def test_no_number_and_no_truth(self):
        for use in (bool, int, float, complex, abs, len, list, range, hex, round, sum):
            self.assertRaises(TypeError, use, OVERFLOWED)
        for use in (
            lambda: OVERFLOWED + 1,
            lambda: 1 + OVERFLOWED,
            lambda: OVERFLOWED * 0,
            lambda: -OVERFLOWED,
            lambda: OVERFLOWED < 1,
            lambda: 1 <= OVERFLOWED,
            lambda: max(OVERFLOWED, 1),
            lambda: sorted([OVERFLOWED, 1]),
            lambda: 1 if OVERFLOWED else 0,
            lambda: not OVERFLOWED,
            lambda: [1, 2][OVERFLOWED],
        ):
            self.assertRaises(TypeError, use)
        with self.assertRaises(AttributeError):
            OVERFLOWED.number = 1

    @with_numpy
    def test_no_number_of_numpy(self):
        self.assertRaises(TypeError, lambda: numpy.array([1], "u8") + OVERFLOWED)
        self.assertRaises(TypeError, lambda: numpy.uint64(1) < OVERFLOWED)
        self.assertRaises((TypeError, ValueError), lambda: numpy.array([OVERFLOWED], "u8"))


class Refusals(Case):
    def test_exception(self):
        error = self.refused(20, 3, razovinto.run, 8, [255, 1, "sum", 0, "product"], 3)
        self.assertEqual(str(error), "allowance spent (refusal 20, place 3)")
        again = pickle.loads(pickle.dumps(error))
        self.assertEqual((again.number, again.place, again.run), (error.number, error.place, error.run))
        self.assertEqual(error.number, Refusal.ALLOWANCE_SPENT)
        self.assertIs(type(error.number), int)
        self.assertIsNone(self.refused(1, 0, razovinto.quotient, 1, 0).run)


class Recipes(Case):
    def test_words_and_lists(self):
        for recipe in (
            [255, 1, "sum", 0, "product"],
            (255, 1, "sum", 0, "product"),
            "255 1 sum 0 product".split(),
            iter([255, 1, "sum", 0, "product"]),
            (b"\0\0\1\0\2", [255, 1, 0, 0, 0]),
            (bytearray(b"\0\0\1\0\2"), array("Q", [255, 1, 0, 0, 0])),
            ([0, 0, 1, 0, 2], (255, 1, 0, 0, 0)),
            (memoryview(b"\0\0\1\0\2"), memoryview(array("Q", [255, 1, 0, 0, 0]))),
        ):
            self.assertEqual(razovinto.run(8, recipe, 100), Run(0, 5))
        self.assertEqual(razovinto.run(8, [255, 1, "sum"], 100), Run(OVERFLOWED, 3))
        self.assertEqual(razovinto.run(64, [MOST], MOST), Run(MOST, 1))
        # two words in a tuple are words
        self.refused(12, 2, razovinto.run, 8, (1, 2), 100)
        self.refused(10, 1, razovinto.run, 8, (1, "sum"), 100)

    def test_all_words(self):
        answers = {"sum": 14, "product": 33, "quotient": 3, "remainder": 2, "power": 11**3, "logarithm": 0}
        self.assertEqual(sorted(answers), sorted(razovinto.KINDS[1:]))
        for word, answer in answers.items():
            self.assertEqual(razovinto.run(64, [11, 3, word], 100).value, answer)

    def test_wrong_words(self):
        self.wrong(ValueError, "recipe[1] is 'plus'", razovinto.run, 8, [1, "plus"], 9)
        self.wrong(ValueError, "recipe[0] is 'literal'", razovinto.run, 8, ["literal"], 9)
        for word in ("-1", "1.0", "", " 1", "1_0", "\u0661"):
            self.wrong(ValueError, "recipe[0] is", razovinto.run, 8, [word], 9)
        self.wrong(OverflowError, "recipe[2] is 18446744073709551616", razovinto.run, 64, [1, 2, MOST + 1], 9)
        self.wrong(OverflowError, "recipe[0] is -1", razovinto.run, 64, [-1], 9)
        self.wrong(OverflowError, "recipe[0] is a number of 9000 digits", razovinto.run, 64, ["9" * 9000], 9)
        self.wrong(TypeError, "recipe[0] is 1.5", razovinto.run, 8, [1.5], 9)
        self.wrong(TypeError, "recipe[1] is overflowed", razovinto.run, 8, [1, OVERFLOWED], 9)
        for text in ("255 1 sum", b"\0"):
            self.wrong(TypeError, "recipe is one text", razovinto.run, 8, text, 9)
        self.wrong(TypeError, "recipe is of the type int", razovinto.shape, 8, 5)
        self.wrong(OverflowError, "kinds[1] is 256", razovinto.run, 8, ([0, 256], [1, 2]), 9)
        self.wrong(OverflowError, "numbers[0] is -1", razovinto.run, 8, ([0], [-1]), 9)
        self.wrong(TypeError, "numbers[1] is 2.0", razovinto.shape, 8, ([0, 0], [1, 2.0]))

    def test_wrong_width_and_allowance(self):
        for width in (0, 7, 9, 65, MOST):
            self.refused(5, 0, razovinto.run, width, [1], 9)
            self.refused(5, 0, razovinto.shape, width, [1])
        self.wrong(OverflowError, "width is -8", razovinto.run, -8, [1], 9)
        self.wrong(OverflowError, "width is 18446744073709551624", razovinto.run, 2**64 + 8, [1], 9)
        self.wrong(OverflowError, "allowance is -1", razovinto.run, 8, [1], -1)
        self.wrong(OverflowError, "allowance is 18446744073709551616", razovinto.run, 8, [1], MOST + 1)
        self.wrong(TypeError, "width is 8.0", razovinto.shape, 8.0, [1])

    def test_shape(self):
        for width in (8, 16, 32, 64):
            self.assertEqual(razovinto.shape(width, [1]), 2**width - 1)
        full = [1] * 32 + ["sum"] * 31
        self.assertEqual(razovinto.run(8, full, 100), Run(32, 63))
        for number, place, recipe in (
            (6, 0, (b"\0\0", [1])),
            (7, 0, []),
            (7, 0, (b"", [])),
            (7, 0, [1] * 257),
            (8, 0, (b"\7", [0])),
            (8, 2, (b"\0\0\1", [1, 1, 1])),
            (9, 1, [1, 256]),
            (10, 1, [1, "sum"]),
            (11, 32, [1] * 33),
            (12, 2, [1, 2]),
        ):
            self.refused(number, place, razovinto.shape, 8, recipe)
            error = self.refused(number, place, razovinto.run, 8, recipe, 9)
            self.assertEqual(error.run, State(0, 0, None, ()))

    def test_stopped(self):
        error = self.refused(20, 3, razovinto.run, 8, [255, 1, "sum", 0, "product"], 3)
        self.assertEqual(error.run, State(3, 3, None, (OVERFLOWED,)))
        error = self.refused(20, 3, razovinto.run, 8, [9, 2, 7, "power", "sum"], 5)
        self.assertEqual(error.run, State(5, 3, razovinto.WithinPower(2, 4, 3), (9,)))
        error = self.refused(20, 2, razovinto.run, 8, [2, 255, "logarithm"], 4)
        self.assertEqual(error.run, State(4, 2, razovinto.WithinLogarithm(2, 127, 1), ()))
        error = self.refused(20, 32, razovinto.run, 8, [0] * 32 + ["sum"] * 31, 32)
        self.assertEqual(error.run, State(32, 32, None, (0,) * 32))
        error = self.refused(20, 0, razovinto.run, 8, [1], 0)
        self.assertEqual(error.run, State(0, 0, None, ()))

    def test_failing(self):
        self.assertEqual(self.refused(1, 2, razovinto.run, 8, [7, 0, "quotient"], 9).run, State(3, 0, None, ()))
        self.assertEqual(self.refused(3, 4, razovinto.run, 8, [255, 1, "sum", 2, "quotient"], 9).run.steps, 5)
        self.assertEqual(razovinto.run(8, [255, 1, "sum", 0, "power"], 9), Run(1, 5))
        self.assertEqual(razovinto.run(8, [7, 255, 1, "sum", "remainder"], 9), Run(7, 5))
        self.assertEqual(self.refused(2, 2, razovinto.run, 8, [1, 5, "logarithm"], 9).run.steps, 3)

    @with_numpy
    def test_numpy(self):
        kinds, numbers = numpy.array([0, 0, 1], "u1"), numpy.array([255, 1, 0], "u8")
        self.assertEqual(razovinto.run(8, (kinds, numbers), 9), Run(OVERFLOWED, 3))
        self.assertEqual(razovinto.run(8, (kinds.astype("i4"), numbers.astype("i4")), 9), Run(OVERFLOWED, 3))
        self.assertEqual(razovinto.run(8, numpy.array([5]), 9), Run(5, 1))
        self.refused(12, 2, razovinto.run, 8, (numpy.int64(1), numpy.int64(2)), 9)
        self.wrong(TypeError, "numbers is an array of float64", razovinto.run, 8, (kinds, numbers.astype("f8")), 9)
        self.wrong(OverflowError, "numbers[1] is -1", razovinto.run, 8, (kinds, numpy.array([1, -1, 0])), 9)
        self.wrong(TypeError, "numbers is a masked array", razovinto.run, 8, (kinds, numpy.ma.array(numbers)), 9)


class Fields(Case):
    def test_ranges(self):
        self.assertEqual(razovinto.scan([7], [0]), Range(7, 7, 0))
        self.assertEqual(razovinto.scan([7] * 1000), Range(7, 7, 0))
        self.assertEqual(razovinto.scan([0, MOST], b"\0\0"), Range(0, MOST, 64))
        self.assertEqual(razovinto.scan(range(3, 9)), Range(3, 8, 3))
        self.assertEqual(razovinto.scan(array("Q", [5, 6])), Range(5, 6, 1))
        self.assertEqual(razovinto.scan(Field([5, 9], b"\0\0")), Range(5, 9, 3))

    def test_refusals(self):
        self.refused(6, 0, razovinto.scan, [1, 2], [0])
        self.refused(6, 0, razovinto.scan, [], [0])
        self.refused(14, 0, razovinto.scan, [], [])
        self.refused(14, 0, razovinto.scan, [])
        self.refused(14, 0, razovinto.scan, array("Q"), b"")
        self.refused(15, 1, razovinto.scan, [1, 2, 0], [0, 2, 1])
        self.refused(15, 1, razovinto.scan, [1, 2, 0], [0, 1, 1])
        self.refused(3, 2, razovinto.scan, [1, 2, 0], [0, 0, 1])
        self.refused(3, 1, razovinto.scan, [1, OVERFLOWED, 2])

    def test_wrong_lists(self):
        self.wrong(OverflowError, "marks[1] is 256", razovinto.scan, [1, 2], [0, 256])
        self.wrong(OverflowError, "numbers[1] is -2", razovinto.scan, array("q", [1, -2]), [0, 0])
        self.wrong(OverflowError, "numbers[0] is -5", razovinto.scan, [-5])
        self.wrong(TypeError, "numbers[0] is 1.0", razovinto.scan, array("d", [1.0]), [0])
        self.wrong(TypeError, "numbers[0] is overflowed", razovinto.scan, [OVERFLOWED], [1])
        self.wrong(TypeError, "numbers[0] is None", razovinto.scan, [None])
        self.wrong(TypeError, "numbers is of the type int", razovinto.scan, 5)
        self.wrong(TypeError, "marks is of the type int", razovinto.scan, [5], 0)
        self.wrong(OverflowError, "marks[0] is -1", razovinto.scan, [5], array("b", [-1]))

    def test_memory(self):
        """What a list is: its own type and layout decides, and not how many bytes there are."""
        numbers = array("Q", [9, 8, 7, 6])
        self.assertEqual(razovinto.scan(memoryview(numbers)[::2]), Range(7, 9, 2))
        self.assertEqual(razovinto.scan(memoryview(numbers)[::-1]), Range(6, 9, 2))
        self.assertEqual(razovinto.scan(memoryview(numbers)[1:3].toreadonly()), Range(7, 8, 1))
        self.assertEqual(razovinto.scan((ctypes.c_uint64 * 2)(4, 5)), Range(4, 5, 1))
        self.assertEqual(razovinto.scan(array("H", [300, 2])), Range(2, 300, 9))
        self.assertEqual(razovinto.scan(b"\3\4", bytes(2)), Range(3, 4, 1))

    @with_numpy
    def test_numpy(self):
        field = numpy.arange(6, dtype="u8").reshape(2, 3) + 10
        self.assertEqual(razovinto.scan(field), Range(10, 15, 3))
        self.assertEqual(razovinto.scan(field.T), Range(10, 15, 3))
        self.assertEqual(razovinto.scan(field, numpy.zeros((2, 3), bool)), Range(10, 15, 3))
        self.assertEqual(razovinto.scan(field[:, ::2], [0, 0, 0, 0]), Range(10, 15, 3))
        self.assertEqual(razovinto.scan(field.astype(">u8")), Range(10, 15, 3))
        self.assertEqual(razovinto.scan(field.astype("i2")), Range(10, 15, 3))
        for letter in ("f4", "c16", "M8[ns]", "m8[ns]", "S2", "U2"):
            self.wrong(TypeError, "numbers is an array of", razovinto.scan, field.astype("i8").astype(letter))
        self.wrong(OverflowError, "numbers[0] is -10", razovinto.scan, -field.astype("i8"))
        self.wrong(TypeError, "numbers is of the type", razovinto.scan, numpy.array(5, "u8"), [0])
        marks = numpy.zeros(6, bool)
        marks[4] = True
        self.refused(15, 4, razovinto.scan, field, marks)
        masked = numpy.ma.MaskedArray(field, mask=marks.reshape(2, 3))
        self.refused(3, 4, razovinto.scan, masked)
        self.assertEqual(razovinto.scan(masked[:1]), Range(10, 12, 2))
        self.assertEqual(razovinto.scan(numpy.ma.MaskedArray(field)), Range(10, 15, 3))
        self.wrong(TypeError, "numbers is a masked array", razovinto.scan, masked, marks)


class Blocks(Case):
    def setUp(self):
        self.block = block_of(7, 5, OVERFLOWED, MOST)

    def test_read(self):
        block = razovinto.read(self.block)
        self.assertEqual(block, Block(7, 3, array("Q", [5, 0, MOST]), b"\0\1\0"))
        self.assertEqual(block.values(), [5, OVERFLOWED, MOST])
        self.assertEqual(razovinto.read(block_of(2**32 - 1)), Block(2**32 - 1, 0, array("Q"), b""))
        self.assertIs(razovinto.sound(self.block), True)

    def test_bad_blocks(self):
        changed = self.block[:9] + b"\1" + self.block[10:]
        edition = model.with_check(self.block[:5] + b"\2" + self.block[6:])
        lengths = ((16, b""), (16, self.block[:511]), (16, self.block + b"\0"))
        for number, block in (*lengths, (17, changed), (18, edition)):
            self.refused(number, 0, razovinto.sound, block)
            self.refused(number, 0, razovinto.read, block)
            self.refused(number, 0, razovinto.read, block, array("Q"), bytearray())

    def test_lent_lists(self):
        numbers, marks = array("Q", [11] * 5), bytearray([12] * 4)
        block = razovinto.read(self.block, numbers, marks)
        self.assertEqual((list(numbers), list(marks)), ([5, 0, MOST, 11, 11], [0, 1, 0, 12]))
        self.assertIs(block.numbers, numbers)
        self.assertIs(block.marks, marks)
        self.assertEqual(block.values(), [5, OVERFLOWED, MOST])
        marks = array("B", [9] * 3)
        self.assertEqual(razovinto.read(self.block, marks=marks).numbers, array("Q", [5, 0, MOST]))
        self.assertEqual(list(marks), [0, 1, 0])
        self.assertEqual(razovinto.read(self.block, numbers=array("Q", [1] * 3)).marks, b"\0\1\0")

    def test_short_lists(self):
        for room_numbers, room_marks in ((2, 3), (3, 2), (0, 55), (55, 0)):
            numbers, marks = array("Q", [11] * room_numbers), bytearray([12] * room_marks)
            self.refused(19, 0, razovinto.read, self.block, numbers, marks)
            self.assertEqual((list(numbers), list(marks)), ([11] * room_numbers, [12] * room_marks))

    def test_neighbours_stay(self):
        numbers, marks = array("Q", [11] * 9), bytearray([12] * 9)
        razovinto.read(self.block, memoryview(numbers)[3:6], memoryview(marks)[3:6])
        self.assertEqual(list(numbers), [11, 11, 11, 5, 0, MOST, 11, 11, 11])
        self.assertEqual(list(marks), [12, 12, 12, 0, 1, 0, 12, 12, 12])

    def test_lists_that_cannot_be_written(self):
        marks = bytearray(55)
        for numbers in (
            [0] * 55,
            (0,) * 55,
            bytes(440),
            bytearray(440),
            array("q", [0] * 55),
            array("d", [0] * 55),
            memoryview(array("Q", [0] * 55)).toreadonly(),
            memoryview(array("Q", [0] * 110))[::2],
            memoryview(array("Q", [0] * 55))[::-1],
            memoryview(bytearray(440)).cast("Q", (5, 11)),
            55,
        ):
            self.wrong(TypeError, "numbers must be a list that can", razovinto.read, self.block, numbers, marks)
        for marks in (bytes(55), [0] * 55, memoryview(bytearray(110))[::2], array("b", [0] * 55), array("Q", [0] * 55)):
            self.wrong(TypeError, "marks must be a list that can be written", razovinto.read, self.block, None, marks)
        askew = memoryview(bytearray(449))[1:441].cast("Q")
        if ctypes.addressof(ctypes.c_char.from_buffer(askew)) % 8:
            self.wrong(ValueError, "numbers is not aligned", razovinto.read, self.block, askew)

    def test_shared_memory(self):
        memory = bytearray(self.block) + bytearray(512)
        whole = memoryview(memory)
        self.wrong(ValueError, "share memory", razovinto.read, whole[:512], whole[504:944].cast("Q"))
        self.wrong(ValueError, "share memory", razovinto.read, whole[:512], None, whole[511:600])
        self.wrong(ValueError, "share memory", razovinto.read, self.block, whole[:440].cast("Q"), whole[400:500])
        self.assertEqual(memory[:512], self.block)
        block = razovinto.read(whole[:512], whole[512:952].cast("Q"), whole[952:])
        self.assertEqual(block.values(), [5, OVERFLOWED, MOST])

    def test_search(self):
        quiet = block_of(0, 1, 2)
        self.assertIsNone(razovinto.search(b""))
        self.assertIsNone(razovinto.search(quiet * 3))
        self.assertEqual(razovinto.search(quiet + self.block), Found(1, 1))
        self.refused(16, 0, razovinto.search, quiet + self.block[:-1])
        self.refused(17, 2, razovinto.search, quiet * 2 + bytes(511) + b"\1")
        self.refused(18, 1, razovinto.search, quiet + bytes(512))
        self.assertEqual(razovinto.search(self.block + bytes(512)), Found(0, 1))

    def test_read_run(self):
        run = block_of(0, 1, 2) + block_of(1) + self.block
        field = razovinto.read_run(run, plain=True)
        self.assertEqual(field, Field(array("Q", [1, 2, 5, 0, MOST]), b"\0\0\0\1\0"))
        self.assertEqual(field.values(), [1, 2, 5, OVERFLOWED, MOST])
        self.assertEqual(razovinto.read_run(b"", plain=True), Field(array("Q"), b""))
        self.refused(3, 3, razovinto.scan, razovinto.read_run(run))
        self.refused(16, 0, razovinto.read_run, run[:-1])
        self.refused(17, 1, razovinto.read_run, run[:512] + bytes(511) + b"\1")
        self.refused(18, 3, razovinto.read_run, run + bytes(512))
        if not numpy:
            self.assertEqual(razovinto.read_run(run), field)

    def test_no_blocks(self):
        for function in (razovinto.sound, razovinto.read, razovinto.search, razovinto.read_run):
            self.wrong(TypeError, "is of the type int", function, 512)
            self.wrong(TypeError, "is 'a'", function, "a" * 512)
            self.wrong(OverflowError, "[0] is 256", function, [256] * 512)

    @with_numpy
    def test_masked(self):
        run = block_of(0, 1, 2) + self.block
        field = razovinto.read_run(run)
        self.assertIsInstance(field, numpy.ma.MaskedArray)
        self.assertEqual((field.dtype, field.mask.dtype), (numpy.uint64, numpy.bool_))
        self.assertEqual(field.tolist(), [1, 2, 5, None, MOST])
        self.assertEqual(field.filled().tolist(), [1, 2, 5, 0, MOST])
        self.assertEqual(razovinto.read_run(block_of(0, 1)).mask.tolist(), [False])
        self.assertEqual(razovinto.read_run(b"").shape, (0,))
        field[0] = 9  # its memory is its own
        self.assertEqual(razovinto.scan(field[:3]), Range(2, 9, 3))

    @with_numpy
    def test_lent_numpy(self):
        numbers, marks = numpy.full(9, 11, "u8"), numpy.full(9, 12, "u1")
        block = razovinto.read(numpy.frombuffer(self.block, "u1"), numbers[3:6], marks[3:6])
        self.assertEqual(numbers.tolist(), [11, 11, 11, 5, 0, MOST, 11, 11, 11])
        self.assertEqual(marks.tolist(), [12, 12, 12, 0, 1, 0, 12, 12, 12])
        self.assertEqual(block.values(), [5, OVERFLOWED, MOST])
        mask = numpy.ones(4, bool)
        razovinto.read(self.block, marks=mask)
        self.assertEqual(mask.tolist(), [False, True, False, True])
        fixed = numpy.zeros(55, "u8")
        fixed.flags.writeable = False
        for wrong in (fixed, numpy.zeros(55, "i8"), numpy.zeros(110, "u8")[::2], numpy.ma.zeros(55, "u8")):
            self.wrong(TypeError, "numbers must be a list that can be written", razovinto.read, self.block, wrong)


def run_of(first, *values):
    """The model's run of a field."""
    field = [0 if value is OVERFLOWED else value for value in values], bytes(value is OVERFLOWED for value in values)
    return model.write(first, *field, 512 * len(values))[2]


class Writing(Case):
    def test_forms(self):
        run = block_of(7, 5, OVERFLOWED, MOST)
        for field in (
            ([5, OVERFLOWED, MOST],),
            (Field([5, 0, MOST], b"\0\1\0"),),
            ([5, 0, MOST], [0, 1, 0]),
            (array("Q", [5, 0, MOST]), bytearray(b"\0\1\0")),
            (memoryview(array("Q", [9, 5, 0, MOST]))[1:], memoryview(b"\1\0\1\0")[1:]),
            (razovinto.read_run(run),),
            (razovinto.read_run(run, plain=True),),
        ):
            written = razovinto.write(7, *field)
            self.assertIs(type(written), bytearray)
            self.assertEqual(written, run)
        self.assertEqual(razovinto.write(0, array("Q", [3])), block_of(0, 3))
        self.assertEqual(razovinto.write(0, range(3)), block_of(0, 0, 1, 2))
        self.assertEqual(razovinto.write(first=1, numbers=[3], marks=[0]), block_of(1, 3))

    def test_lengths(self):
        for n in (1, 54, 55, 56, 109, 110, 111, 1000):
            values = [OVERFLOWED if i % 9 == 4 else MOST - i for i in range(n)]
            written = razovinto.write(3, values)
            self.assertEqual(written, run_of(3, *values))
            self.assertEqual(razovinto.read_run(written, plain=True).values(), values)
        self.assertEqual(razovinto.search(razovinto.write(0, [1] * 60 + [OVERFLOWED])), Found(1, 5))

    def test_sample(self):
        """The sample's blocks are numbered from 0 on and filled as written ones are."""
        run = (ROOT / "examples" / "mountain.blocks").read_bytes()
        self.assertEqual(razovinto.write(0, razovinto.read_run(run)), run)

    def test_lent_run(self):
        wanted = run_of(9, *range(56))
        for room in (1024, 1025, 1536):
            for run in (bytearray([77]) * room, array("B", [77] * room), memoryview(bytearray([77]) * room)):
                self.assertEqual(razovinto.write(9, range(56), run=run), 1024)
                self.assertEqual(bytes(run), wanted + bytes([77]) * (room - 1024))
        around = bytearray([77]) * 1034
        self.assertEqual(razovinto.write(9, range(56), None, memoryview(around)[5:-5]), 1024)
        self.assertEqual(around, bytes([77]) * 5 + wanted + bytes([77]) * 5)

    def test_refusals(self):
        last = 2**32 - 1
        for number, place, first, numbers, marks, room in (
            (6, 0, 0, [1, 2], [0], 512),
            (6, 0, 0, [], [0], 512),
            (6, 0, last, [1] * 56, [2], 0),
            (14, 0, last, [], [], 0),
            (15, 1, 0, [1, 2, 0], [0, 2, 1], 512),
            (15, 1, last, [1, 2] * 28, [0, 1] * 28, 0),
            (15, 55, 0, [0] * 56, [1] * 55 + [255], 1024),
            (19, 0, 0, [1], [0], 511),
            (19, 0, last, [1] * 56, [0] * 56, 1023),
            (21, 0, last, [1] * 56, [0] * 56, 1024),
            (21, 0, last - 1, [1] * 111, [0] * 111, 1536),
        ):
            run = bytearray([77]) * room
            self.refused(number, place, razovinto.write, first, numbers, marks, run)
            self.assertEqual(run, bytes([77]) * room)
            if number != 19:
                self.refused(number, place, razovinto.write, first, numbers, marks)
        self.refused(14, 0, razovinto.write, 0, [])
        self.assertEqual(razovinto.write(last, [1] * 55), block_of(last, *[1] * 55))
        self.assertEqual(len(razovinto.write(last - 1, [OVERFLOWED] * 56)), 1024)

    def test_wrong_numbers(self):
        self.wrong(OverflowError, "first is -1, and must be from 0 to 4294967295", razovinto.write, -1, [1])
        self.wrong(OverflowError, "first is 4294967296", razovinto.write, 2**32, [1])
        self.wrong(TypeError, "first is [1]", razovinto.write, [1], 0)
        self.wrong(TypeError, "first is overflowed", razovinto.write, OVERFLOWED, [1])
        self.wrong(OverflowError, "numbers[1] is 18446744073709551616", razovinto.write, 0, [1, MOST + 1])
        self.wrong(OverflowError, "marks[0] is 256", razovinto.write, 0, [1], [256])
        self.wrong(TypeError, "numbers is of the type int", razovinto.write, 0, 5)
        self.wrong(TypeError, "numbers[0] is overflowed", razovinto.write, 0, [OVERFLOWED], [1])

    def test_runs_that_cannot_be_written(self):
        for run in (
            bytes(512),
            [0] * 512,
            memoryview(bytearray(512)).toreadonly(),
            memoryview(bytearray(1024))[::2],
            array("b", [0] * 512),
            array("Q", [0] * 64),
            memoryview(bytearray(512)).cast("B", (2, 256)),
            512,
        ):
            self.wrong(TypeError, "run must be a list that can be written", razovinto.write, 0, [1], [0], run)

    def test_shared_memory(self):
        memory = bytearray(16) + bytearray(512)
        whole = memoryview(memory)
        numbers, marks, before = whole[:16].cast("Q"), whole[8:10], bytes(memory)
        self.wrong(ValueError, "numbers and run share memory", razovinto.write, 0, numbers, b"\0\0", whole[15:])
        self.wrong(ValueError, "marks and run share memory", razovinto.write, 0, [1, 2], marks, whole[9:])
        self.wrong(ValueError, "share memory", razovinto.write, 0, whole[512:].cast("Q"), b"\0\0", whole[:520])
        self.assertEqual(memory, before)
        # Lists that are only read may be the same memory.
        self.assertEqual(razovinto.write(0, numbers, marks, whole[16:]), 512)
        self.assertEqual(memory[16:], block_of(0, 0, 0))

    @with_numpy
    def test_numpy(self):
        field = numpy.arange(60, dtype="u8").reshape(6, 10)
        wanted = run_of(1, *range(60))
        for letter in ("u8", "i4", ">u8", object):
            self.assertEqual(razovinto.write(1, field.astype(letter)), wanted)
        self.assertEqual(razovinto.write(1, numpy.asfortranarray(field)), wanted)
        self.assertEqual(razovinto.write(1, field, numpy.zeros((6, 10), bool)), wanted)
        self.assertEqual(razovinto.write(numpy.uint32(1), field[:, ::2]), run_of(1, *range(0, 60, 2)))
        self.wrong(TypeError, "numbers is an array of float64", razovinto.write, 1, field.astype("f8"))
        run = numpy.full(1200, 77, "u1")
        self.assertEqual(razovinto.write(1, field, run=run), 1024)
        self.assertEqual(run.tobytes(), wanted + bytes([77]) * 176)
        self.wrong(TypeError, "run must be a list", razovinto.write, 1, field, None, numpy.zeros((2, 512), "u1"))

    @with_numpy
    def test_masked(self):
        masked = numpy.ma.MaskedArray(numpy.arange(6, dtype="u8") + 1, mask=[0, 0, 1, 0, 0, 1])
        wanted = run_of(2, 1, 2, OVERFLOWED, 4, 5, OVERFLOWED)
        self.assertEqual(razovinto.write(2, masked), wanted)
        self.assertEqual(razovinto.write(2, masked.reshape(2, 3)), wanted)
        self.assertEqual(razovinto.write(2, razovinto.read_run(wanted)), wanted)
        self.assertEqual(razovinto.write(2, numpy.ma.MaskedArray(numpy.array([3], "u8"))), block_of(2, 3))
        self.wrong(TypeError, "numbers is a masked array", razovinto.write, 2, masked, [0] * 6)


NAN, INFINITY = math.nan, math.inf
# The smallest and the largest number of 32 bits, and the largest with a fraction.
TINY, HUGE, LAST_FRACTION = 2.0**-149, 2.0**128 - 2.0**104, 8388607.5


class Levels(Case):
    def same(self, extent, *numbers):
        """The numbers and their signs: two zeros are equal and aren't the same."""
        self.assertIs(type(extent), Extent)
        self.assertEqual(list(map(repr, extent)), list(map(repr, numbers)))

    def test_forms(self):
        for readings in (
            [2.5, -1.0, 300.0],
            (2.5, -1, 300),
            array("f", [2.5, -1.0, 300.0]),
            array("d", [2.5, -1.0, 300.0]),
            memoryview(array("f", [9.0, 2.5, -1.0, 300.0]))[1:],
            memoryview(array("f", [300.0, -1.0, 2.5]))[::-1],
            memoryview(array("f", [2.5, -1.0, 300.0]).tobytes()).cast("f"),
            (ctypes.c_float * 3)(2.5, -1.0, 300.0),
            (number for number in (2.5, -1.0, 300.0)),
            [Fraction(5, 2), Decimal("-1.0"), 300],
        ):
            self.same(razovinto.level_scan(readings), -1.0, 300.0)
        self.same(razovinto.level_scan(range(3, 9), bytes(6)), 3.0, 8.0)
        self.same(razovinto.level_scan([True, False]), 0.0, 1.0)

    def test_extents(self):
        self.same(razovinto.level_scan([7.5], [1]), 7.5, 7.5)
        self.same(razovinto.level_scan([0.0, -0.0]), 0.0, 0.0)
        self.same(razovinto.level_scan([-0.0, 0.0, -0.0]), -0.0, -0.0)
        self.same(razovinto.level_scan([1, -0.0, 0.0]), -0.0, 1.0)
        self.same(razovinto.level_scan([-TINY, TINY, HUGE, -HUGE], [0, 1, 1, 0]), -HUGE, HUGE)
        self.same(razovinto.level_scan(readings=[-TINY, 0, TINY], ground=b"\1\1\1"), -TINY, TINY)

    def test_refusals(self):
        self.refused(6, 0, razovinto.level_scan, [NAN, 1], [2])
        self.refused(6, 0, razovinto.level_scan, [], [0])
        self.refused(14, 0, razovinto.level_scan, [], [])
        self.refused(14, 0, razovinto.level_scan, array("f"))
        self.refused(15, 1, razovinto.level_scan, [1, NAN, NAN], [0, 2, 1])
        self.refused(22, 1, razovinto.level_scan, [1, INFINITY, 2], [0, 1, 2])
        self.refused(22, 0, razovinto.level_scan, [-INFINITY])
        self.refused(22, 2, razovinto.level_scan, [1.5, -0.0, NAN])

    def test_every_nan(self):
        """Quiet and signalling ones of both signs, with each digit of the payload, as they lie in memory."""
        for sign in (0, 2**31):
            for bits in (0x7F800000, 0x7FC12345, 0x7FFFFFFF, 0x7FBFFFFF, *(0x7F800000 + 2**i for i in range(23))):
                level = array("I", [0x3F800000, sign + bits, 0]).tobytes()
                readings = memoryview(level).cast("f")
                self.refused(22, 1, razovinto.level_scan, readings, b"\0\1\0")
                self.refused(22, 1, razovinto.level_to_field, readings)
                self.refused(22, 1, razovinto.level_scan, readings.tolist())

    def test_lengths(self):
        for n in (1, 4095, 4096, 4097, 65536):
            readings = array("f", [1.0]) * n
            self.same(razovinto.level_scan(readings), 1.0, 1.0)
            self.assertEqual(razovinto.level_to_field(readings), Field(array("Q", [1]) * n, bytes(n)))
            readings[n - 1] = 0.5
            self.same(razovinto.level_scan(readings), 0.5, 1.0 if n > 1 else 0.5)
            self.refused(23, n - 1, razovinto.level_to_field, readings)
            readings[n - 1] = NAN
            self.refused(22, n - 1, razovinto.level_scan, readings)
            self.refused(22, n - 1, razovinto.level_to_field, readings)

    def test_plateau(self):
        """The accident of version two: one NaN in a plateau of 65,536 readings is named by its place."""
        readings, ground = array("f", [258.125]) * 65536, b"\1" * 65536
        self.same(razovinto.level_scan(readings, ground), 258.125, 258.125)
        for place in (0, 4095, 4096, 40000, 65535):
            readings[place] = NAN
            self.refused(22, place, razovinto.level_scan, readings, ground)
            readings[place] = 258.125

    def test_fields(self):
        field = razovinto.level_to_field([-0.0, 0.0, 1, 8388607, 8388608, 16777215], [0, 1, 0, 1, 0, 1])
        self.assertEqual(field, Field(array("Q", [0, 0, 1, 8388607, 8388608, 16777215]), bytes(6)))
        self.assertEqual(razovinto.scan(field), Range(0, 16777215, 24))
        self.assertEqual(razovinto.search(razovinto.write(0, field)), None)
        for reading in (16777216, 0.5, LAST_FRACTION, -1, -0.5, TINY, -TINY, HUGE, 2.0**32, 2.0**64, -16777215):
            self.refused(23, 1, razovinto.level_to_field, [1, reading, NAN])
            self.refused(15, 1, razovinto.level_to_field, [1, reading, NAN], [0, 2, 0])
            self.refused(22, 0, razovinto.level_to_field, [INFINITY, reading])
        self.refused(6, 0, razovinto.level_to_field, [NAN, 1], [2])
        self.refused(14, 0, razovinto.level_to_field, [])

    def test_lent_lists(self):
        numbers, marks = array("Q", [11] * 3), bytearray([12] * 3)
        field = razovinto.level_to_field([5, -0.0, 7], None, numbers, marks)
        self.assertEqual((list(numbers), list(marks)), ([5, 0, 7], [0, 0, 0]))
        self.assertIs(field.numbers, numbers)
        self.assertIs(field.marks, marks)
        for numbers, marks in (
            (array("Q", [11] * 5), bytearray([12] * 4)),
            (memoryview(array("Q", [11] * 5)), memoryview(bytearray([12] * 4))),
            ((ctypes.c_uint64 * 5)(*[11] * 5), (ctypes.c_uint8 * 4)(*[12] * 4)),
        ):
            field = razovinto.level_to_field([5, -0.0, 7], [0, 1, 0], numbers, marks)
            self.assertEqual((list(numbers), list(marks)), ([5, 0, 7, 11, 11], [0, 0, 0, 12]))
            # A field's lists are as long as the level, whatever the lent ones are.
            self.assertEqual((list(field.numbers), list(field.marks)), ([5, 0, 7], [0, 0, 0]))
            self.assertEqual(field.values(), [5, 0, 7])
        numbers = array("Q", [11] * 9)
        field = razovinto.level_to_field([5, 6], numbers=numbers)
        self.assertEqual(razovinto.scan(field), Range(5, 6, 1))
        numbers[0] = 4  # the field's numbers stand in the lent list
        self.assertEqual(field.values(), [4, 6])
        self.assertEqual(razovinto.level_to_field([5, 6], marks=bytearray(3)).numbers, array("Q", [5, 6]))

    def test_short_lists(self):
        for room_numbers, room_marks in ((2, 3), (3, 2), (0, 55), (55, 0)):
            numbers, marks = array("Q", [11] * room_numbers), bytearray([12] * room_marks)
            for readings in ([1, 2, 3], [NAN, 0.5, -1]):
                self.refused(19, 0, razovinto.level_to_field, readings, None, numbers, marks)
            self.refused(6, 0, razovinto.level_to_field, [1, 2, 3], [0], numbers, marks)
            self.assertEqual((list(numbers), list(marks)), ([11] * room_numbers, [12] * room_marks))

    def test_refused_lists_stay(self):
        numbers, marks = array("Q", [11] * 4), bytearray([12] * 4)
        for number, place, readings, ground in (
            (6, 0, [1, 2], [0]),
            (14, 0, [], []),
            (15, 2, [1, 2, NAN], [0, 1, 2]),
            (22, 3, [1, 2, 3, INFINITY], [0] * 4),
            (23, 1, [1, 2.5, NAN], [0] * 3),
        ):
            self.refused(number, place, razovinto.level_to_field, readings, ground, numbers, marks)
            self.assertEqual((list(numbers), list(marks)), ([11] * 4, [12] * 4))

    def test_numbers_that_no_float_is(self):
        """Nothing is rounded: what 32 bits don't hold exactly is named by its place."""
        others = Fraction(1, 3), Decimal("0.1")
        for number in (0.1, 16777217, 1e300, -1e300, 1e-50, 2**60 + 1, 2**1030, 10**6000, *others):
            for function in (razovinto.level_scan, razovinto.level_to_field):
                self.wrong(ValueError, "readings[1] is ", function, [NAN, number], [0, 0])
        self.wrong(ValueError, "readings[0] is 0.1, which no 32-bit float is", razovinto.level_scan, array("d", [0.1]))
        self.wrong(ValueError, "a number of 19932 binary digits", razovinto.level_scan, [10**6000])
        self.wrong(ValueError, "a number of the type Fraction", razovinto.level_scan, [Fraction(10**6000)])
        self.wrong(ValueError, "readings[0] is Decimal('sNaN')", razovinto.level_scan, [Decimal("sNaN")])
        self.refused(22, 0, razovinto.level_scan, [Decimal("NaN")])
        self.refused(22, 0, razovinto.level_scan, [Decimal("-Infinity")])
        self.same(razovinto.level_scan([Decimal("-0"), Fraction(1, 8), 2**60]), -0.0, 2.0**60)

    def test_wrong_lists(self):
        for given in ("1", b"1", None, [1.0], 1j, float, OVERFLOWED):
            self.wrong(TypeError, "readings[1] is ", razovinto.level_scan, [0.5, given])
        self.wrong(TypeError, "readings[0] is overflowed", razovinto.level_scan, [OVERFLOWED])
        self.wrong(TypeError, "readings is of the type float", razovinto.level_scan, 0.5)
        self.wrong(TypeError, "readings[0] is 'a'", razovinto.level_scan, "abc")
        self.wrong(TypeError, "ground is of the type int", razovinto.level_scan, [0.5], 0)
        self.wrong(TypeError, "ground[0] is 0.0", razovinto.level_scan, [0.5], [0.0])
        self.wrong(OverflowError, "ground[0] is 256", razovinto.level_scan, [0.5], [256])
        # Bytes would be taken for numbers from 0 to 255, where the floats in them are meant.
        raw = array("f", [0.5, 2.0]).tobytes()
        for given in (raw, bytearray(raw), memoryview(raw), memoryview(raw).cast("c")):
            self.wrong(TypeError, "readings is bytes", razovinto.level_scan, given)
            self.wrong(TypeError, "cast('f')", razovinto.level_to_field, given)
        self.same(razovinto.level_scan(memoryview(raw).cast("f")), 0.5, 2.0)

    def test_lists_that_cannot_be_written(self):
        marks = bytearray(3)
        for numbers in (
            [0] * 3,
            bytes(24),
            bytearray(24),
            array("q", [0] * 3),
            array("d", [0] * 3),
            memoryview(array("Q", [0] * 3)).toreadonly(),
            memoryview(array("Q", [0] * 6))[::2],
            memoryview(bytearray(32)).cast("Q", (2, 2)),
            3,
        ):
            self.wrong(TypeError, "numbers must be a list", razovinto.level_to_field, [1] * 3, None, numbers, marks)
        for marks in (bytes(3), [0] * 3, memoryview(bytearray(6))[::2], array("b", [0] * 3), array("f", [0] * 3)):
            self.wrong(TypeError, "marks must be a list that", razovinto.level_to_field, [1] * 3, None, None, marks)
        askew = memoryview(bytearray(33))[1:25].cast("Q")
        if ctypes.addressof(ctypes.c_char.from_buffer(askew)) % 8:
            self.wrong(ValueError, "numbers is not aligned", razovinto.level_to_field, [1] * 3, None, askew)

    def test_shared_memory(self):
        memory = bytearray(array("f", [1.0] * 4).tobytes()) + bytearray(48)
        whole, before = memoryview(memory), bytes(memory)
        readings = whole[:16].cast("f")
        for words, given in (
            ("readings and numbers share memory", (readings, None, whole[8:40].cast("Q"))),
            ("readings and marks share memory", (readings, None, None, whole[15:19])),
            ("numbers and ground share memory", (readings, whole[40:44], whole[16:48].cast("Q"))),
            ("ground and marks share memory", (readings, whole[16:20], None, whole[19:23])),
            ("numbers and marks share memory", (readings, None, whole[16:48].cast("Q"), whole[47:51])),
            ("share memory", (readings, None, whole.cast("Q"))),
        ):
            self.wrong(ValueError, words, razovinto.level_to_field, *given)
            self.assertEqual(memory, before)
        # Lists that are only read may be the same memory, and lists may lie one after the other.
        ones = memoryview(bytearray(16))
        self.same(razovinto.level_scan(ones.cast("f"), ones[:4]), 0.0, 0.0)
        field = razovinto.level_to_field(readings, whole[16:20], whole[24:56].cast("Q"), whole[20:24])
        self.assertEqual(field.values(), [1] * 4)
        self.assertEqual(memory[:20] + memory[56:], before[:20] + before[56:])

    @with_numpy
    def test_numpy(self):
        level = numpy.arange(6, dtype="f4").reshape(2, 3) + numpy.float32(0.5)
        ground = numpy.zeros((2, 3), bool)
        for letter in ("f4", ">f4", "f8", "f2", "g", object):
            self.same(razovinto.level_scan(level.astype(letter)), 0.5, 5.5)
            self.same(razovinto.level_scan(level.astype(letter), ground), 0.5, 5.5)
        self.same(razovinto.level_scan(level.T), 0.5, 5.5)
        self.same(razovinto.level_scan(level[:, ::2], [0, 0, 1, 1]), 0.5, 5.5)
        self.same(razovinto.level_scan(list(level.ravel())), 0.5, 5.5)
        self.same(razovinto.level_scan(level.astype("i2")), 0.0, 5.0)
        self.same(razovinto.level_scan(ground), 0.0, 0.0)
        level[1, 1] = numpy.nan
        # The place is that of the items in order, whichever way they lie in memory.
        for given in (level, numpy.asfortranarray(level), level.astype(">f4"), level.astype("f8"), list(level.flat)):
            self.refused(22, 4, razovinto.level_scan, given)
        self.refused(22, 3, razovinto.level_scan, level.T)
        self.refused(23, 0, razovinto.level_to_field, level)
        for number in (numpy.float64(0.1), numpy.int64(2**60 + 1), numpy.uint64(MOST), numpy.longdouble(1) / 3):
            self.wrong(ValueError, "readings[1] is ", razovinto.level_scan, [numpy.float32(0.1), number])
            self.wrong(ValueError, "readings[0] is ", razovinto.level_scan, numpy.array([number]))
        self.wrong(TypeError, "readings[0] is (1+0j)", razovinto.level_scan, [numpy.complex64(1)])
        self.wrong(TypeError, "readings[0] is masked", razovinto.level_scan, [numpy.ma.masked])
        for letter in ("c8", "c16", "M8[ns]", "m8[ns]", "S2", "U2"):
            given = numpy.zeros(3).astype(letter)
            self.wrong(TypeError, "readings is an array of", razovinto.level_scan, given)
        self.wrong(TypeError, "readings is of the type ndarray", razovinto.level_scan, numpy.array(0.5, "f4"))
        self.wrong(TypeError, "ground is an array of float32", razovinto.level_scan, level, level)

    @with_numpy
    def test_masked(self):
        masked = numpy.ma.MaskedArray(numpy.ones(3, "f4"), mask=[0, 1, 0])
        for function in (razovinto.level_scan, razovinto.level_to_field):
            self.wrong(TypeError, "readings is a masked array", function, masked)
            self.wrong(TypeError, "ground is a masked array", function, [1.0], numpy.ma.zeros(1, "u1"))
        wrong = numpy.ma.zeros(3, "u8"), numpy.ma.zeros(3, "u1")
        self.wrong(TypeError, "numbers must be a list that", razovinto.level_to_field, [1] * 3, None, wrong[0])
        self.wrong(TypeError, "marks must be a list that", razovinto.level_to_field, [1] * 3, None, None, wrong[1])

    @with_numpy
    def test_lent_numpy(self):
        numbers, marks = numpy.full(9, 11, "u8"), numpy.full(9, 12, "u1")
        level = numpy.array([[5, -0.0], [7, 16777215]], "f4")
        field = razovinto.level_to_field(level, None, numbers[3:8], marks[3:])
        self.assertEqual(numbers.tolist(), [11, 11, 11, 5, 0, 7, 16777215, 11, 11])
        self.assertEqual(marks.tolist(), [12, 12, 12, 0, 0, 0, 0, 12, 12])
        self.assertEqual(field.values(), [5, 0, 7, 16777215])
        self.assertTrue(numpy.shares_memory(field.numbers, numbers) and numpy.shares_memory(field.marks, marks))
        mask = numpy.ones(5, bool)
        razovinto.level_to_field(level, marks=mask)
        self.assertEqual(mask.tolist(), [False] * 4 + [True])
        numbers.flags.writeable = False
        for wrong in (numbers, numpy.zeros(4, "i8"), numpy.zeros(8, "u8")[::2], numpy.zeros((2, 2), "u8")):
            self.wrong(TypeError, "numbers must be a list that", razovinto.level_to_field, level, None, wrong)
        memory = numpy.zeros(8, "f4")
        self.wrong(ValueError, "share memory", razovinto.level_to_field, memory[:4], None, memory.view("u8"))
        self.assertFalse(memory.any())


# Operations of a row, and what each comes to: number, mark and code.
OPERATIONS = (
    ((1, MOST - 1, 1), (MOST, 0, 0)),
    ((1, MOST, 2), (0, 1, 0)),
    ((2, 2**32, 2**32 - 1), (2**64 - 2**32, 0, 0)),
    ((2, MOST, 2), (0, 1, 0)),
    ((3, MOST, 10), (MOST // 10, 0, 0)),
    ((3, 7, 0), (0, 0, 1)),
    ((4, MOST, 10), (5, 0, 0)),
    ((4, 0, 0), (0, 0, 1)),
    ((5, 0, 0), (1, 0, 0)),
    ((5, 3, 41), (0, 1, 0)),
    ((6, 2, MOST), (63, 0, 0)),
    ((6, 1, 5), (0, 0, 2)),
    ((0, 1, 2), (0, 0, 8)),
    ((7, 1, 2), (0, 0, 8)),
    ((255, MOST, 0), (0, 0, 8)),
)
RECORDS = [operation for operation, _ in OPERATIONS]
KINDS, LEFTS, RIGHTS = (list(each) for each in zip(*RECORDS))
NUMBERS, MARKS, CODES = (list(each) for each in zip(*(element for _, element in OPERATIONS)))
TWO = ("sum", "quotient"), (270, 7), (11, 0)


class Rows(Case):
    def same(self, row, numbers, marks, codes):
        self.assertIs(type(row), Row)
        self.assertEqual([list(each) for each in row], [list(numbers), list(marks), list(codes)])

    def both(self, kinds, lefts, rights, *more):
        """The row of plain lists and that of records."""
        yield razovinto.row(kinds, lefts, rights, *more)
        yield razovinto.row_of_records(list(zip(kinds, lefts, rights)), *more)

    def test_elements(self):
        for row in self.both(KINDS, LEFTS, RIGHTS):
            self.same(row, NUMBERS, MARKS, CODES)
        for (kind, left, right), (number, mark, code) in OPERATIONS:
            for row in self.both([kind], [left], [right]):
                self.same(row, [number], [mark], [code])

    def test_equal_to_single_operations(self):
        edges = 0, 1, 2, 3, 10, 2**32 - 1, 2**32, 2**63, MOST - 1, MOST
        pairs = [(left, right) for left in edges for right in edges]
        for kind, word in enumerate(razovinto.KINDS[1:], 1):
            row = razovinto.row([kind] * len(pairs), *zip(*pairs))
            for (left, right), number, mark, code in zip(pairs, *row):
                try:
                    value = getattr(razovinto, word)(left, right)
                except Refused as refused:
                    self.assertEqual((number, mark, code), (0, 0, refused.number))
                else:
                    self.assertEqual((OVERFLOWED if mark else int(number), code), (value, 0))

    def test_kinds(self):
        for kinds in (
            [1, 3],
            ("sum", "quotient"),
            ["sum", 3],
            b"\1\3",
            bytearray(b"\1\3"),
            array("B", [1, 3]),
            array("q", [1, 3]),
            memoryview(b"\0\1\3")[1:],
            (ctypes.c_uint8 * 2)(1, 3),
            iter(["sum", "quotient"]),
        ):
            self.same(razovinto.row(kinds, [270, 7], [11, 0]), [281, 0], [0, 0], [0, 1])
        row = razovinto.row(range(256), [7] * 256, [2] * 256)
        self.same(row, [0, 9, 14, 3, 1, 49] + [0] * 250, [0] * 256, [8] + [0] * 6 + [8] * 249)

    def test_records(self):
        class Other(ctypes.Structure):
            _fields_ = [("right", ctypes.c_uint32), ("kind", ctypes.c_int), ("left", ctypes.c_uint64)]

        for records in (
            [("sum", 270, 11), (3, 7, 0)],
            ([1, 270, 11], ["quotient", 7, 0]),
            (record for record in ((1, 270, 11), (3, 7, 0))),
            (Operation * 2)((1, 270, 11), (3, 7, 0)),
            [Operation(1, 270, 11), Operation(kind=3, left=7)],
            (Other * 2)((11, 1, 270), (0, 3, 7)),
            [Operation(1, 270, 11), (3, 7, 0)],
        ):
            self.same(razovinto.row_of_records(records), [281, 0], [0, 0], [0, 1])
        self.same(razovinto.row_of_records(records=[(255, MOST, MOST)]), [0], [0], [8])
        # What stands between kind and left counts for nothing, and stays.
        raw = b"\1" + b"\xff" * 7 + array("Q", [270, 11]).tobytes()
        records = (Operation * 1).from_buffer_copy(raw)
        self.same(razovinto.row_of_records(records), [281], [0], [0])
        self.assertEqual(bytes(records), raw)

    def test_layout(self):
        self.assertEqual(ctypes.sizeof(Operation), 24)
        self.assertEqual([getattr(Operation, name).offset for name in ("kind", "left", "right")], [0, 8, 16])
        self.assertEqual(razovinto.ROW_MOST, 4096)

    def test_refusals(self):
        numbers, marks, codes = array("Q", [11] * 9), bytearray([12] * 9), bytearray([13] * 9)
        for number, kinds, lefts, rights, rooms in (
            (6, 1, 2, 2, (9, 9, 9)),
            (6, 2, 1, 2, (9, 9, 9)),
            (6, 2, 2, 1, (0, 0, 0)),
            (6, 0, 0, 1, (0, 0, 0)),
            (6, 4097, 4096, 4096, (9, 9, 9)),
            (7, 0, 0, 0, (9, 9, 9)),
            (7, 4097, 4097, 4097, (0, 0, 0)),
            (19, 2, 2, 2, (1, 9, 9)),
            (19, 2, 2, 2, (9, 1, 9)),
            (19, 2, 2, 2, (9, 9, 1)),
            (19, 2, 2, 2, (0, 0, 0)),
        ):
            lent = [memoryview(each)[:room] for each, room in zip((numbers, marks, codes), rooms)]
            operations = [7] * kinds, [1] * lefts, [2] * rights
            self.refused(number, 0, razovinto.row, *operations, *lent)
            if number != 19:
                self.refused(number, 0, razovinto.row, *operations)
            if number != 6:
                self.refused(number, 0, razovinto.row_of_records, [(7, 1, 2)] * kinds, *lent)
            self.assertEqual((list(numbers), list(marks), list(codes)), ([11] * 9, [12] * 9, [13] * 9))

    def test_lengths(self):
        for n in (1, 2, 55, 4095, 4096):
            lefts, rights = range(n), [3] * n
            wanted = [each * 3 for each in range(n - 1)] + [0], bytes(n), bytes(n - 1) + b"\1"
            for row in self.both([2] * (n - 1) + ["remainder"], lefts, rights[:-1] + [0]):
                self.same(row, *wanted)
            self.assertEqual({len(each) for each in row}, {n})
        for row in (razovinto.row, lambda *three: razovinto.row_of_records(list(zip(*three)))):
            self.refused(7, 0, row, [1] * 4097, [1] * 4097, [1] * 4097)
            self.refused(7, 0, row, [], [], [])

    def test_own_lists(self):
        for row in (razovinto.row(*TWO, plain=True), razovinto.row_of_records(list(zip(*TWO)), plain=True)):
            self.assertEqual(row, Row(array("Q", [281, 0]), b"\0\0", b"\0\1"))
        for row in self.both(*TWO):
            if numpy:
                self.assertEqual([each.dtype for each in row], [numpy.uint64, numpy.uint8, numpy.uint8])
                row.numbers[0] = 5  # their memory is their own
            else:
                self.assertEqual(row, Row(array("Q", [281, 0]), b"\0\0", b"\0\1"))

    def test_lent_lists(self):
        for plain in (False, True):
            numbers, marks, codes = array("Q", [11] * 2), bytearray([12] * 2), bytearray([13] * 2)
            for row in self.both(*TWO, numbers, marks, codes, plain):
                self.assertIs(row.numbers, numbers)
                self.assertIs(row.marks, marks)
                self.assertIs(row.codes, codes)
                self.same(row, [281, 0], [0, 0], [0, 1])
        for lists in (
            (array("Q", [11] * 4), bytearray([12] * 3), bytearray([13] * 5)),
            tuple(map(memoryview, (array("Q", [11] * 4), bytearray([12] * 3), bytearray([13] * 5)))),
            ((ctypes.c_uint64 * 4)(*[11] * 4), (ctypes.c_uint8 * 3)(*[12] * 3), (ctypes.c_uint8 * 5)(*[13] * 5)),
        ):
            for row in self.both(*TWO, *lists):
                self.assertEqual(list(map(list, lists)), [[281, 0, 11, 11], [0, 0, 12], [0, 1, 13, 13, 13]])
                # The answer's lists are as long as the row, whatever the lent ones are.
                self.same(row, [281, 0], [0, 0], [0, 1])
        codes = bytearray([13] * 3)
        row = razovinto.row(*TWO, codes=codes, plain=True)
        self.assertEqual((row.numbers, row.marks, codes), (array("Q", [281, 0]), b"\0\0", b"\0\1\15"))
        codes[0] = 99  # the answer's codes stand in the lent list
        self.assertEqual(list(row.codes), [99, 1])

    def test_neighbours_stay(self):
        for function, operations in ((razovinto.row, TWO), (razovinto.row_of_records, [list(zip(*TWO))])):
            numbers, marks, codes = array("Q", [11] * 6), bytearray([12] * 6), bytearray([13] * 6)
            function(*operations, *(memoryview(each)[2:4] for each in (numbers, marks, codes)))
            self.assertEqual(list(numbers), [11, 11, 281, 0, 11, 11])
            self.assertEqual(list(marks), [12, 12, 0, 0, 12, 12])
            self.assertEqual(list(codes), [13, 13, 0, 1, 13, 13])

    def test_wrong_lists(self):
        self.wrong(ValueError, "kinds[1] is 'plus', and must be", razovinto.row, [1, "plus"], [1, 2], [1, 2])
        self.wrong(ValueError, "kinds[0] is 'literal'", razovinto.row, ["literal"], [1], [1])
        self.wrong(TypeError, "kinds is one text", razovinto.row, "sum", [1], [1])
        self.wrong(OverflowError, "kinds[1] is 256", razovinto.row, [1, 256], [1, 2], [1, 2])
        self.wrong(TypeError, "kinds[0] is 1.0", razovinto.row, [1.0], [1], [1])
        self.wrong(TypeError, "kinds is of the type int", razovinto.row, 1, [1], [1])
        self.wrong(OverflowError, "lefts[1] is -1", razovinto.row, [1, 1], [1, -1], [1, 2])
        self.wrong(OverflowError, "rights[0] is 18446744073709551616", razovinto.row, [1], [1], [MOST + 1])
        self.wrong(TypeError, "lefts[0] is overflowed", razovinto.row, [1], [OVERFLOWED], [1])
        self.wrong(TypeError, "rights is of the type int", razovinto.row, [1], [1], 1)

    def test_wrong_records(self):
        for record in (1, (1, 2), (1, 2, 3, 4), "sum", b"\1\2\3", None, {1, 2, 3}, OVERFLOWED):
            self.wrong(TypeError, "records[1] is", razovinto.row_of_records, [(1, 2, 3), record])
        self.wrong(ValueError, "kind of records[1] is 'plus'", razovinto.row_of_records, [(1, 2, 3), ("plus", 2, 3)])
        self.wrong(OverflowError, "the kind of records[0] is -1", razovinto.row_of_records, [(-1, 2, 3)])
        self.wrong(OverflowError, "the left of records[1] is -2", razovinto.row_of_records, [(1, 2, 3), (1, -2, 3)])
        self.wrong(OverflowError, "the right of records[0] is 18446744", razovinto.row_of_records, [(1, 2, MOST + 1)])
        self.wrong(TypeError, "the right of records[0] is 3.0", razovinto.row_of_records, [(1, 2, 3.0)])
        self.wrong(TypeError, "the left of records[0] is overflowed", razovinto.row_of_records, [(1, OVERFLOWED, 3)])
        self.wrong(TypeError, "records is of the type int", razovinto.row_of_records, 5)
        for raw in (bytes(24), bytearray(48)):
            self.wrong(TypeError, "records is bytes", razovinto.row_of_records, raw)
        # Rows and columns of plain numbers are no records.
        self.wrong(TypeError, "records[0] is 1", razovinto.row_of_records, array("Q", [1, 2, 3]))

    def test_lists_that_cannot_be_written(self):
        wrong = bytes(2), [0] * 2, memoryview(bytearray(4))[::2], array("b", [0] * 2), memoryview(bytes(2)), 2
        for function, operations in ((razovinto.row, TWO), (razovinto.row_of_records, [list(zip(*TWO))])):
            for numbers in (bytearray(16), array("q", [0] * 2), *wrong):
                self.wrong(TypeError, "numbers must be a list that", function, *operations, numbers)
            for each in (array("Q", [0] * 2), *wrong):
                self.wrong(TypeError, "marks must be a list that", function, *operations, None, each)
                self.wrong(TypeError, "codes must be a list that", function, *operations, None, None, each)
            askew = memoryview(bytearray(25))[1:17].cast("Q")
            if ctypes.addressof(ctypes.c_char.from_buffer(askew)) % 8:
                self.wrong(ValueError, "numbers is not aligned", function, *operations, askew)

    def test_shared_memory(self):
        memory = bytearray(80)
        whole, before = memoryview(memory), bytes(80)
        kinds, lefts, rights = whole[:2], whole[8:24].cast("Q"), whole[24:40].cast("Q")
        for words, given in (
            ("kinds and marks share memory", (None, whole[1:3])),
            ("kinds and codes share memory", (None, None, whole[:2])),
            ("lefts and numbers share memory", (whole[16:32].cast("Q"),)),
            ("rights and marks share memory", (None, whole[39:41])),
            ("numbers and marks share memory", (whole[40:56].cast("Q"), whole[55:57])),
            ("marks and codes share memory", (None, whole[60:62], whole[61:63])),
            ("share memory", (whole.cast("Q"),)),
        ):
            self.wrong(ValueError, words, razovinto.row, kinds, lefts, rights, *given)
            self.assertEqual(memory, before)
        # Lists that are only read may be the same memory, and lists may lie one after the other.
        row = razovinto.row(kinds, lefts, lefts, whole[40:56].cast("Q"), whole[56:58], whole[58:60])
        self.same(row, [0, 0], [0, 0], [8, 8])
        records = (Operation * 2).from_buffer(whole[:48])
        for given in ((whole[40:56].cast("Q"),), (None, whole[47:49]), (None, None, whole[:3])):
            self.wrong(ValueError, "records and", razovinto.row_of_records, records, *given)
        row = razovinto.row_of_records(records, whole[48:64].cast("Q"), whole[64:66], whole[66:68])
        self.same(row, [0, 0], [0, 0], [8, 8])

    @with_numpy
    def test_numpy(self):
        kinds, lefts, rights = numpy.array(KINDS, "u1"), numpy.array(LEFTS, "u8"), numpy.array(RIGHTS, "u8")
        self.same(razovinto.row(kinds, lefts, rights), NUMBERS, MARKS, CODES)
        self.same(razovinto.row(kinds.astype("i4"), lefts.astype(object), rights.astype(">u8")), NUMBERS, MARKS, CODES)
        self.same(razovinto.row(kinds.reshape(3, 5), lefts, rights.reshape(5, 3)), NUMBERS, MARKS, CODES)
        self.same(razovinto.row(kinds[::-1], lefts[::-1], rights[::-1]), NUMBERS[::-1], MARKS[::-1], CODES[::-1])
        self.same(razovinto.row(numpy.array(TWO[0], object), *TWO[1:]), [281, 0], [0, 0], [0, 1])
        self.same(razovinto.row(numpy.ones(2, bool), *TWO[1:]), [281, 7], [0, 0], [0, 0])
        self.wrong(TypeError, "lefts is an array of float64", razovinto.row, kinds, lefts.astype("f8"), rights)
        self.wrong(TypeError, "kinds is an array of <U3", razovinto.row, numpy.array(["sum"]), [1], [1])
        self.wrong(OverflowError, "kinds[1] is -1", razovinto.row, numpy.array([1, -1]), [1, 2], [1, 2])
        for place in range(3):
            given = [numpy.ma.array(each) if i == place else each for i, each in enumerate((kinds, lefts, rights))]
            self.wrong(TypeError, "is a masked array", razovinto.row, *given)

    @with_numpy
    def test_numpy_records(self):
        own = numpy.array(RECORDS, Operation)
        for fields, align in (
            ([("kind", "u1"), ("left", "u8"), ("right", "u8")], False),
            ([("right", ">u8"), ("left", "u8"), ("more", "f4"), ("kind", "i8")], False),
            ([("kind", "u1"), ("flags", "u1", 7), ("left", "u8"), ("right", "u8")], True),
            ([("kind", "O"), ("left", "O"), ("right", "O")], False),
        ):
            records = numpy.full(len(own), 1, numpy.dtype(fields, align=align))
            for name in ("kind", "left", "right"):
                records[name] = own[name]
            for given in (records, numpy.rec.array(records), list(records), records.reshape(5, 3)):
                self.same(razovinto.row_of_records(given), NUMBERS, MARKS, CODES)
        in_order = numpy.asfortranarray(own.reshape(3, 5))
        for given in (own, own[::-1][::-1], own.reshape(3, 5), in_order, own[["kind", "left", "right"]]):
            self.same(razovinto.row_of_records(given), NUMBERS, MARKS, CODES)
        self.same(razovinto.row_of_records(own[::-1]), NUMBERS[::-1], MARKS[::-1], CODES[::-1])
        self.same(razovinto.row_of_records(own[3:4]), [0], [1], [0])
        self.refused(7, 0, razovinto.row_of_records, own[:0])
        own.flags.writeable = False
        self.same(razovinto.row_of_records(own), NUMBERS, MARKS, CODES)

    @with_numpy
    def test_wrong_numpy_records(self):
        own = numpy.zeros(3, Operation)
        self.wrong(TypeError, "records is a masked array", razovinto.row_of_records, numpy.ma.array(own))
        self.wrong(TypeError, "records have no field 'kind'", razovinto.row_of_records, own[["left", "right"]])
        self.wrong(TypeError, "records[0] is 0", razovinto.row_of_records, own["left"])
        self.wrong(TypeError, "records is of the type ndarray", razovinto.row_of_records, numpy.array(5))
        real = own.astype([("kind", "u1"), ("left", "f8"), ("right", "u8")])
        self.wrong(TypeError, "the left of records is an array of float64", razovinto.row_of_records, real)
        signed = numpy.zeros(3, [("kind", "i1"), ("left", "i8"), ("right", "i8")])
        signed["right"][2] = -5
        self.wrong(OverflowError, "the right of records[2] is -5", razovinto.row_of_records, signed)
        several = numpy.zeros(3, [("kind", "u1", 2), ("left", "u8"), ("right", "u8")])
        self.wrong(TypeError, "records must have one kind", razovinto.row_of_records, several)

    @with_numpy
    def test_lent_numpy(self):
        numbers, marks, codes = numpy.full(6, 11, "u8"), numpy.ones(6, bool), numpy.full(6, 13, "u1")
        for row in self.both(*TWO, numbers[2:], marks[2:4], codes[2:]):
            self.same(row, [281, 0], [0, 0], [0, 1])
            for given, lent in zip(row, (numbers, marks, codes)):
                self.assertTrue(numpy.shares_memory(given, lent))
        self.assertEqual(numbers.tolist(), [11, 11, 281, 0, 11, 11])
        self.assertEqual(marks.tolist(), [True, True, False, False, True, True])
        self.assertEqual(codes.tolist(), [13, 13, 0, 1, 13, 13])
        records = numpy.zeros(2, Operation)
        self.wrong(ValueError, "records and numbers share", razovinto.row_of_records, records, records.view("u8")[3:5])
        self.assertFalse(records.view("u8").any())


class Lending(Case):
    def address(self, given, items=None):
        with razovinto._lend("given", given, items or razovinto._NUMBERS) as lent:
            return lent.address, lent.count

    def test_no_copy(self):
        """The address that the library gets is that of the caller's own memory, to be read or written."""
        numbers = array("Q", [1, 2, 3])
        there = numbers.buffer_info()[0]
        self.assertEqual(self.address(numbers), (there, 3))
        self.assertEqual(self.address(memoryview(numbers)[1:]), (there + 8, 2))
        self.assertEqual(self.address(memoryview(numbers).toreadonly()), (there, 3))
        text = bytes(range(200))
        there = ctypes.cast(ctypes.c_char_p(text), ctypes.c_void_p).value
        view = memoryview(text)
        for view, offset in ((text, 0), (view, 0), (view[5:], 5), (view.cast("c"), 0)):
            self.assertEqual(self.address(view, razovinto._BYTES), (there + offset, 200 - offset))
        memory = bytearray(100)
        there = ctypes.addressof(ctypes.c_char.from_buffer(memory))
        self.assertEqual(self.address(memory, razovinto._BYTES), (there, 100))

    def test_askew(self):
        """Numbers that are not aligned are copied to where they are."""
        memory = bytearray(8 + 16)
        there = ctypes.addressof(ctypes.c_char.from_buffer(memory))
        for offset in range(8):
            numbers = memoryview(memory)[offset : offset + 16].cast("Q")
            numbers[0], numbers[1] = 3, 5
            address, count = self.address(numbers)
            self.assertEqual((address % 8, count), (0, 2))
            self.assertEqual(address == there + offset, (there + offset) % 8 == 0)
            self.assertEqual(razovinto.scan(numbers), Range(3, 5, 2))

    @with_numpy
    def test_no_copy_of_numpy(self):
        numbers = numpy.arange(6, dtype="u8").reshape(2, 3)
        self.assertEqual(self.address(numbers), (numbers.ctypes.data, 6))
        numbers.flags.writeable = False
        self.assertEqual(self.address(numbers[1:]), (numbers.ctypes.data + 24, 3))
        marks = numpy.zeros(6, bool)
        self.assertEqual(self.address(marks, razovinto._BYTES), (marks.ctypes.data, 6))
        self.assertNotEqual(self.address(numbers.T)[0], numbers.ctypes.data)

    def test_no_copy_of_floats(self):
        readings = array("f", [1.5, 2.5, 3.5])
        there = readings.buffer_info()[0]
        raw = bytes(readings)
        self.assertEqual(self.address(readings, razovinto._FLOATS), (there, 3))
        self.assertEqual(self.address(memoryview(readings)[1:], razovinto._FLOATS), (there + 4, 2))
        self.assertEqual(self.address(memoryview(readings).toreadonly(), razovinto._FLOATS), (there, 3))
        there = ctypes.cast(ctypes.c_char_p(raw), ctypes.c_void_p).value
        self.assertEqual(self.address(memoryview(raw).cast("f"), razovinto._FLOATS), (there, 3))
        self.assertNotEqual(self.address(array("d", readings), razovinto._FLOATS)[0], there)
        memory = bytearray(4 + 8)
        there = ctypes.addressof(ctypes.c_char.from_buffer(memory))
        for offset in range(4):
            askew = memoryview(memory)[offset : offset + 8].cast("f")
            askew[0], askew[1] = 2.5, -1.0
            address, count = self.address(askew, razovinto._FLOATS)
            self.assertEqual((address % 4, count), (0, 2))
            self.assertEqual(address == there + offset, (there + offset) % 4 == 0)
            self.assertEqual(razovinto.level_scan(askew), Extent(-1.0, 2.5))

    @with_numpy
    def test_no_copy_of_numpy_floats(self):
        readings = numpy.arange(6, dtype="f4").reshape(2, 3)
        self.assertEqual(self.address(readings, razovinto._FLOATS), (readings.ctypes.data, 6))
        readings.flags.writeable = False
        self.assertEqual(self.address(readings[1:], razovinto._FLOATS), (readings.ctypes.data + 12, 3))
        for other in (readings.T, readings[:, ::2], readings.astype(">f4"), readings.astype("f8")):
            self.assertNotEqual(self.address(other, razovinto._FLOATS)[0], other.ctypes.data)

    def address_of_records(self, given):
        with razovinto._lend_records(given) as lent:
            return lent.address, lent.count

    def test_no_copy_of_records(self):
        records = (Operation * 3)((1, 2, 3), (4, 5, 6))
        self.assertEqual(self.address_of_records(records), (ctypes.addressof(records), 3))
        memory = bytearray(24 * 2 + 8)
        there = ctypes.addressof(ctypes.c_char.from_buffer(memory))
        for offset in range(8):
            askew = (Operation * 2).from_buffer(memory, offset)
            askew[0], askew[1] = (2, 3, 5), (3, 7, 0)
            address, count = self.address_of_records(askew)
            self.assertEqual((address % 8, count), (0, 2))
            self.assertEqual(address == there + offset, (there + offset) % 8 == 0)
            self.assertEqual(razovinto.row_of_records(askew, plain=True), Row(array("Q", [15, 0]), bytes(2), b"\0\1"))

    @with_numpy
    def test_no_copy_of_numpy_records(self):
        """What lies as Operation does is lent where it is, with other fields between its own too; nothing else is."""
        records = numpy.zeros(6, Operation)
        self.assertEqual(self.address_of_records(records), (records.ctypes.data, 6))
        self.assertEqual(self.address_of_records(records[1:4]), (records.ctypes.data + 24, 3))
        self.assertEqual(self.address_of_records(records.reshape(2, 3)), (records.ctypes.data, 6))
        self.assertEqual(self.address_of_records(records.view(numpy.recarray)), (records.ctypes.data, 6))
        records.flags.writeable = False
        self.assertEqual(self.address_of_records(records[5:]), (records.ctypes.data + 120, 1))
        fields = [("kind", "u1"), ("flags", "u1", 3), ("more", "f4"), ("left", "u8"), ("right", "u8")]
        flagged = numpy.zeros(4, numpy.dtype(fields, align=True))
        self.assertEqual(self.address_of_records(flagged), (flagged.ctypes.data, 4))
        raw = numpy.frombuffer(bytes(24 * 4), Operation)
        self.assertEqual(self.address_of_records(raw), (raw.ctypes.data, 4))
        for fields in (
            [("kind", "u1"), ("left", "u8"), ("right", "u8")],
            [("kind", "i1"), ("more", "V7"), ("left", "u8"), ("right", "u8")],
            [("kind", "u1"), ("more", "V7"), ("left", ">u8"), ("right", "u8")],
            [("kind", "u1"), ("more", "V7"), ("right", "u8"), ("left", "u8")],
            [("kind", "u1"), ("more", "V7"), ("left", "u8"), ("right", "u8"), ("last", "u8")],
        ):
            other = numpy.zeros(4, fields)
            self.assertNotEqual(self.address_of_records(other)[0], other.ctypes.data)
        for other in (records[::2], records[::-1], records.reshape(2, 3).T):
            self.assertNotEqual(self.address_of_records(other)[0], other.ctypes.data)

    def test_floats_of_a_file(self):
        with tempfile.TemporaryFile() as file:
            file.write(array("f", [271.5, -1.0, 300.0]).tobytes())
            file.flush()
            with mmap.mmap(file.fileno(), 0, access=mmap.ACCESS_READ) as raw:
                self.assertRaises(TypeError, razovinto.level_scan, raw)
                with memoryview(raw) as view, view.cast("f") as readings:
                    self.assertEqual(razovinto.level_scan(readings), Extent(-1.0, 300.0))

    def test_memory_of_a_file(self):
        with open(ROOT / "examples" / "mountain.blocks", "rb") as file:
            with mmap.mmap(file.fileno(), 0, access=mmap.ACCESS_READ) as run:
                self.assertEqual(razovinto.search(run), Found(16, 3))
                self.assertEqual(len(razovinto.read_run(run, plain=True).numbers), 38 * 57)
                with memoryview(run) as view:
                    self.assertEqual(razovinto.read(view[-512:]).count, 21)

    def test_given_back(self):
        """After a call, refused or not, the memory is its owner's alone again, and nothing is kept."""
        memory, marks = bytearray(block_of(1, 2)), bytearray(55)
        level, numbers = array("f", [1.0] * 3), array("Q", [0] * 5)
        text = bytes(bytearray(512))
        before = sys.getrefcount(text), sys.getrefcount(memory)
        for _ in range(50):
            razovinto.sound(memory)
            razovinto.read(memory, None, marks)
            self.assertRaises(Refused, razovinto.read, memory, array("Q"), marks)
            self.assertRaises(TypeError, razovinto.read, memory, 5, marks)
            self.assertRaises(TypeError, razovinto.read, memory, None, 5)
            self.assertRaises(ValueError, razovinto.read, memory, None, memory)
            self.assertRaises(Refused, razovinto.sound, text)
            self.assertRaises(Refused, razovinto.search, text)
            self.assertRaises(Refused, razovinto.run, 8, (memory, []), 9)
            razovinto.write(0, [1], None, memory)
            self.assertRaises(Refused, razovinto.write, 0, [1] * 56, marks, memory)
            self.assertRaises(Refused, razovinto.write, 0, [], b"", memory)
            self.assertRaises(TypeError, razovinto.write, 0, memory, 5)
            self.assertRaises(TypeError, razovinto.write, 0, [1], [0], text)
            self.assertRaises(ValueError, razovinto.write, 0, [1], memory, memory)
            razovinto.level_scan(level, marks[:3])
            razovinto.level_to_field(level, None, None, marks)
            razovinto.level_to_field(level, memory[6:9], numbers)
            self.assertRaises(Refused, razovinto.level_scan, level, marks)
            self.assertRaises(Refused, razovinto.level_to_field, level, marks, numbers)
            self.assertRaises(TypeError, razovinto.level_scan, level, 5)
            self.assertRaises(TypeError, razovinto.level_to_field, level, None, numbers, 5)
            self.assertRaises(TypeError, razovinto.level_to_field, level, None, level)
            self.assertRaises(ValueError, razovinto.level_to_field, level, marks, None, marks)
            razovinto.row(marks[:2], numbers[:2], numbers[:2], numbers, marks, bytearray(2))
            razovinto.row_of_records([(1, 2, 3)], numbers, marks)
            self.assertRaises(Refused, razovinto.row, marks, numbers, numbers)
            self.assertRaises(Refused, razovinto.row_of_records, [(1, 2, 3)] * 9, numbers, marks)
            self.assertRaises(TypeError, razovinto.row, marks, numbers, 5)
            self.assertRaises(TypeError, razovinto.row, memory[:1], [1], [1], numbers, marks, text)
            self.assertRaises(TypeError, razovinto.row_of_records, [(1, 2, 3)], numbers, marks, 5)
            self.assertRaises(ValueError, razovinto.row, memory[:1], [1], [1], numbers, marks, marks)
        self.assertEqual((sys.getrefcount(text), sys.getrefcount(memory)), before)
        memory.append(0)  # would be a BufferError if it were still lent
        marks.append(0)
        level.append(0)
        numbers.append(0)

    def test_threads(self):
        run = (ROOT / "examples" / "mountain.blocks").read_bytes()
        answers = []
        threads = [
            threading.Thread(target=lambda: answers.extend(razovinto.search(run) for _ in range(200))) for _ in range(4)
        ]
        for thread in threads:
            thread.start()
        for thread in threads:
            thread.join()
        self.assertEqual(set(answers), {Found(16, 3)})
        self.assertEqual(len(answers), 800)


class Library(Case):
    def imported(self, program="import razovinto", module=MODULE.parent, **environment):
        """What a Python of its own says, called from elsewhere."""
        settings = {**os.environ, "PYTHONPATH": str(module), "PYTHONDONTWRITEBYTECODE": "1"}
        for name in ("RAZOVINTO_LIBRARY", "LD_LIBRARY_PATH"):
            settings.pop(name, None)
        settings.update(environment)
        with tempfile.TemporaryDirectory() as elsewhere:
            command = [sys.executable, "-c", program]
            return subprocess.run(command, env=settings, cwd=elsewhere, capture_output=True, text=True, check=False)

    def test_found(self):
        program = "import razovinto, sys; print(razovinto._library._name, 'numpy' in sys.modules)"
        self.assertEqual(self.imported(program).stdout, f"{ROOT / 'target' / 'host' / 'librazovinto.so'} False\n")

    def test_named(self):
        with tempfile.TemporaryDirectory() as folder:
            named = Path(folder, "another.so")
            named.write_bytes((ROOT / "target" / "host" / "librazovinto.so").read_bytes())
            ended = self.imported("import razovinto; print(razovinto._library._name)", RAZOVINTO_LIBRARY=str(named))
            self.assertEqual(ended.stdout, f"{named}\n")

    def test_not_found(self):
        """The error says where it was looked for, and how it is made."""
        ended = self.imported(RAZOVINTO_LIBRARY="/nowhere/librazovinto.so")
        self.assertNotEqual(ended.returncode, 0)
        self.assertIn("/nowhere/librazovinto.so: ", ended.stderr)
        self.assertIn("'tools/host-library' makes", ended.stderr)
        self.assertNotIn(str(ROOT / "target"), ended.stderr)
        with tempfile.TemporaryDirectory() as folder:
            alone = Path(folder, "a", "b", "c")
            alone.mkdir(parents=True)
            (alone / "razovinto.py").write_bytes(MODULE.read_bytes())
            ended = self.imported(module=alone)
            self.assertIn(f"{folder}/a/b/target/host/librazovinto.so: ", ended.stderr)
            major = razovinto.__version__.split(".")[0]
            self.assertIn(f"{folder}/lib/librazovinto.so.{major}: ", ended.stderr)

    def test_other_library(self):
        ended = self.imported(RAZOVINTO_LIBRARY="libc.so.6")
        self.assertIn("libc.so.6: ", ended.stderr)
        self.assertIn("razovinto_sum", ended.stderr)

    def test_documented(self):
        """Every public function has its docstring, every name of __all__ is there, and the examples hold."""
        for name in razovinto.__all__:
            self.assertTrue(hasattr(razovinto, name), name)
            thing = getattr(razovinto, name)
            if callable(thing):
                self.assertTrue(thing.__doc__, name)
        failed, tried = doctest.testmod(razovinto)
        self.assertEqual(failed, 0)
        self.assertGreater(tried, 0)


class Examples(Case):
    def drawn(self, *words):
        command = [sys.executable, str(ROOT / "examples" / "plateau.py"), *words]
        return subprocess.run(command, capture_output=True, text=True, check=False)

    def test_plateau(self):
        """The picture is of the size that a page shows, and its hatched places are those of the sample."""
        if not importlib.util.find_spec("matplotlib"):
            ended = self.drawn()
            self.assertEqual((ended.returncode, ended.stdout), (1, ""))
            self.assertEqual(ended.stderr, "plateau: matplotlib isn't here, so no picture is drawn\n")
            return
        field = [sample.temperature(row, column) for row in range(sample.ROWS) for column in range(sample.COLUMNS)]
        with tempfile.TemporaryDirectory() as folder:
            picture = Path(folder, "plateau.png")
            ended = self.drawn(str(picture))
            told = f"{field.count(model.OVERFLOWED)} of {len(field)} places are overflowed"
            self.assertEqual((ended.stdout, ended.stderr), (f"plateau: {picture}, {told}\n", ""))
            for each in (picture, ROOT / "docs" / "plateau.png"):
                image = each.read_bytes()
                self.assertEqual(image[:8], b"\x89PNG\r\n\x1a\n")
                self.assertIn(int.from_bytes(image[16:20], "big"), range(900, 1201))
                self.assertLess(len(image), 80000)

    def test_plateau_misused(self):
        ended = self.drawn("a.png", "b.png")
        self.assertEqual((ended.returncode, ended.stderr), (1, "usage: examples/plateau.py [FILE]\n"))


if __name__ == "__main__":
    unittest.main()
