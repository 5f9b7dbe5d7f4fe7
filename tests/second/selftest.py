#!/usr/bin/env python3
"""The model against the rules' own tables, and against true unlimited numbers at 8 bits."""
import math
import struct
import unittest
from fractions import Fraction
from itertools import product

import cases
import model
import rows
from model import OVERFLOWED, WIDTHS, limit

# Answer (a value, or a refusal and its place) and steps of each small run at width 8.
SMALL_ANSWERS = (
    (OVERFLOWED, 3),
    (0, 5),
    (0, 5),
    ((1, 2), 3),
    ((3, 4), 5),
    (128, 6),
    (OVERFLOWED, 7),
    (16, 4),
    (1, 3),
    (7, 10),
    (0, 3),
    ((2, 2), 3),
)
# Answer and steps of each recipe of cases.KNOWN_RUNS.
KNOWN_ANSWERS = (
    (0, 5),
    (7, 5),
    ((3, 4), 5),
    (1, 5),
    (0, 5),
    (1, 5),
    (OVERFLOWED, 5),
    (OVERFLOWED, 5),
    (OVERFLOWED, 7),
    (0, 5),
    (0, 5),
    ((3, 4), 5),
)
# A ceiling far above the model's own.
FAR = 2**300000


class Tables(unittest.TestCase):
    def test_small_runs(self):
        runs, answers = cases.SMALL_RUNS + cases.KNOWN_RUNS, SMALL_ANSWERS + KNOWN_ANSWERS
        for words, (answer, steps) in zip(runs, answers, strict=True):
            ran = model.run(8, *cases.recipe(words), 100)
            given = (ran.code, ran.place) if ran.code else ran.value
            self.assertEqual((given, ran.steps), (answer, steps), words)

    def test_signed(self):
        for a, b, quotient, remainder in ((-7, 2, (0, -3), -1), (7, -2, (0, -3), 1), (-128, -1, (4, 0), 0)):
            self.assertEqual(model.signed(8, 0, a, b), quotient)
            self.assertEqual(model.signed(8, 1, a, b), (0, remainder))

    def test_packing_widths(self):
        self.assertEqual([model.packing_width(3, 3 + wide) for wide in (0, 1, 255, 256)], [0, 1, 8, 9])

    def test_block_checks(self):
        checks = [model.check_of(model.make_block(0, values)) for values in ([], [3], [OVERFLOWED])]
        self.assertEqual(checks, [6, 38, 460])
        self.assertLess(model.check_of(bytes([255]) * 512), 2**32)

    def test_written_checks(self):
        for number, mark, check in ((3, 0, 38), (0, 1, 460)):
            fault, place, run = model.write(0, [number], bytes([mark]), 512)
            self.assertEqual((fault, place, len(run)), (0, 0, 512))
            self.assertEqual(int.from_bytes(run[508:], "little"), check)

    def test_written_blocks(self):
        """Every block but the last has 55 values, and the last from 1 to 55."""
        for n, counts in ((1, [1]), (54, [54]), (55, [55]), (56, [55, 1]), (110, [55, 55]), (111, [55, 55, 1])):
            run = model.write(2**32 - len(counts), [7] * n, bytes(n), 512 * len(counts))[2]
            self.assertEqual([block[4] for block in blocks_of(run)], counts)
            numbers = [model.number_of_block(block) for block in blocks_of(run)]
            self.assertEqual(numbers, list(range(2**32 - len(counts), 2**32)))

    def test_refusals_of_a_writing(self):
        """Each refusal alone, and each before those that come after it."""
        most = 2**32 - 1
        for wanted, first, numbers, marks, room in (
            ((6, 0), 0, [1], b"", 512),
            ((6, 0), most, [5] * 56, b"\2", 0),
            ((14, 0), 0, [], b"", 512),
            ((14, 0), most, [], b"", 0),
            ((15, 1), 0, [1, 2], b"\0\2", 512),
            ((15, 1), 0, [0, 2], b"\1\1", 512),
            ((15, 0), most, [5] * 56, bytes([255]) * 56, 0),
            ((19, 0), 0, [1] * 56, bytes(56), 1023),
            ((19, 0), most, [1] * 56, bytes(56), 1023),
            ((21, 0), most, [1] * 56, bytes(56), 1024),
        ):
            self.assertEqual(model.write(first, numbers, marks, room), (*wanted, b""))

    def test_readings(self):
        """Readings against the numbers that they are said to be."""
        for bits, number in (
            (cases.ZERO, 0),
            (cases.MINUS_ZERO, 0),
            (cases.ONE, 1),
            (cases.MINUS_ONE, -1),
            (cases.HALF, Fraction(1, 2)),
            (cases.ONE_AND_A_HALF, Fraction(3, 2)),
            (cases.TINY, Fraction(1, 2**149)),
            (cases.SUBNORMAL, Fraction(2**23 - 1, 2**149)),
            (cases.NORMAL, Fraction(1, 2**126)),
            (cases.LAST_WHOLE, 16777215),
            (cases.PAST_WHOLE, 16777216),
            (model.bits_of_whole(2**23) - 1, Fraction(16777215, 2)),
            (cases.HUGE, (2**24 - 1) * 2**104),
        ):
            self.assertTrue(model.is_usable(bits))
            self.assertEqual(Fraction(model.exact(bits), model.UNIT), number)
        for bits in (*cases.NANS, *cases.INFINITIES):
            self.assertFalse(model.is_usable(bits))

    def test_extents(self):
        """The earliest of equals with its bits, and what is under the ground counts."""
        zero, minus, one, below = cases.ZERO, cases.MINUS_ZERO, cases.ONE, cases.MINUS_ONE
        for level, extent in (
            ([zero, minus], (zero, zero)),
            ([minus, zero], (minus, minus)),
            ([one, minus, zero], (minus, one)),
            ([one, zero, minus], (zero, one)),
            ([below, minus, zero], (below, minus)),
            ([minus + 1, zero, minus], (minus + 1, zero)),
            ([cases.TINY, cases.NORMAL], (cases.TINY, cases.NORMAL)),
        ):
            for ground in (bytes(len(level)), b"\1" * len(level)):
                self.assertEqual(model.scan_level(level, ground), (0, 0, *extent))

    def test_refusals_of_a_level(self):
        """Each refusal alone, and each before those that come after it."""
        one, half, nan, infinite = cases.ONE, cases.HALF, cases.NANS[0], cases.INFINITIES[0]
        for wanted, level, ground in (
            ((6, 0), [nan], b""),
            ((6, 0), [], b"\2"),
            ((14, 0), [], b""),
            ((15, 1), [one, nan], b"\0\2"),
            ((15, 0), [one, nan], b"\3\0"),
            ((22, 0), [nan, one], b"\0\2"),
            ((22, 1), [half, infinite, nan], bytes(3)),
        ):
            self.assertEqual(model.scan_level(level, ground), (*wanted, 0, 0))
        for wanted, level, ground, numbers, marks in (
            ((6, 0), [half], b"", 0, 0),
            ((14, 0), [], b"", 0, 0),
            ((19, 0), [half, nan], b"\2\0", 1, 2),
            ((19, 0), [half, nan], b"\2\0", 2, 1),
            ((15, 0), [nan, half], b"\2\0", 2, 2),
            ((22, 0), [nan, half], b"\1\2", 2, 2),
            ((23, 0), [half, nan], b"\1\2", 2, 2),
            ((23, 1), [cases.LAST_WHOLE, cases.PAST_WHOLE], b"\1\0", 9, 9),
        ):
            self.assertEqual(model.turn(level, ground, numbers, marks), (*wanted, []))

    def test_turned(self):
        level, numbers = [cases.MINUS_ZERO, cases.ONE, cases.LAST_WHOLE], [0, 1, 16777215]
        self.assertEqual(model.turn(level, bytes(3), 3, 4), (0, 0, numbers))

    def test_accident(self):
        """One NaN in a plateau of 65,536 readings is named by its place."""
        n, place = 65536, 40000
        accident, sound = cases.plateau(n, place), cases.plateau(n)
        self.assertEqual(model.scan_level(*accident), (22, place, 0, 0))
        self.assertEqual(model.scan_level(*sound)[:2], (0, 0))

    def test_refusals_of_a_row(self):
        """Each refusal alone, and each before those that come after it; none of an element's is one of the row's."""
        for wanted, kinds, lefts, rights, rooms in (
            (6, 1, 2, 2, (2, 2, 2)),
            (6, 2, 1, 2, (2, 2, 2)),
            (6, 2, 2, 1, (0, 0, 0)),
            (6, 0, 1, 0, (0, 0, 0)),
            (6, 4097, 4097, 4096, (0, 0, 0)),
            (7, 0, 0, 0, (0, 0, 0)),
            (7, 4097, 4097, 4097, (4097, 4097, 4097)),
            (7, 4097, 4097, 4097, (0, 0, 0)),
            (19, 2, 2, 2, (1, 2, 2)),
            (19, 2, 2, 2, (2, 1, 2)),
            (19, 4096, 4096, 4096, (4096, 4096, 4095)),
        ):
            self.assertEqual(model.row(bytes(kinds), [0] * lefts, [0] * rights, rooms), (wanted, []))
        self.assertEqual(model.row(bytes(4096), [0] * 4096, [0] * 4096, (4096,) * 3), (0, [(0, 0, 8)] * 4096))

    def test_rows(self):
        """A row's elements by hand: number, mark and code."""
        most = limit(64)
        for operation, wanted in (
            ((1, most, 1), (0, 1, 0)),
            ((2, 2**32, 2**32 - 1), (2**64 - 2**32, 0, 0)),
            ((3, 7, 0), (0, 0, 1)),
            ((4, 7, 2), (1, 0, 0)),
            ((5, 0, 0), (1, 0, 0)),
            ((5, 2, 64), (0, 1, 0)),
            ((6, 2, most), (63, 0, 0)),
            ((6, 1, 5), (0, 0, 2)),
            ((0, 1, 2), (0, 0, 8)),
            ((7, 1, 2), (0, 0, 8)),
            ((255, 0, 0), (0, 0, 8)),
        ):
            self.assertEqual(model.row(*([each] for each in operation), (1, 1, 1)), (0, [wanted]))

    def test_roots(self):
        self.assertEqual([cases.root_of(e) for e in (2, 40, 41, 63, 64)], [4294967295, 3, 2, 2, 1])


class Meanings(unittest.TestCase):
    def test_sum_and_product_stand_for_any_numbers(self):
        """The result stands for the sum or product of any numbers that the operands stand for."""
        for width in WIDTHS:
            most = limit(width)
            for case in cases.operation_edges([width]):
                if case.kind > model.PRODUCT:
                    continue
                value = model.operation(most, case.kind, case.left, case.right)[1]
                for left in model.stands_for(most, case.left):
                    for right in model.stands_for(most, case.right):
                        whole = left + right if case.kind == model.SUM else left * right
                        self.assertEqual(model.checked(most, whole), value, case.words())

    def test_refused_though_certain(self):
        """Where 3 is given at 8 bits although every number that the operands stand for has one answer."""
        certain = {}
        for case in cases.every_operation_at_8():
            if model.operation_by_rules(255, case.kind, case.left, case.right)[0] == model.IS_OVERFLOWED:
                answers = {certainly(case.kind, *some) for some in product(many(case.left), many(case.right))}
                if len(answers) == 1:
                    certain[model.KIND_WORDS[case.kind], case.left, case.right] = answers.pop()
        self.assertEqual(
            certain,
            {
                ("quotient", OVERFLOWED, 0): (model.DIVISOR_ZERO, 0),
                ("quotient", OVERFLOWED, 1): (0, OVERFLOWED),
                ("remainder", OVERFLOWED, 0): (model.DIVISOR_ZERO, 0),
                ("remainder", OVERFLOWED, 1): (0, 0),
                ("logarithm", 0, OVERFLOWED): (model.BASE_BELOW_TWO, 0),
                ("logarithm", 1, OVERFLOWED): (model.BASE_BELOW_TWO, 0),
            },
        )

    def test_rows_are_single_operations(self):
        """A row of every kind on all pairs of small numbers and of edges, against the operations one by one."""
        numbers = [*range(40), *(edge for edge in cases.edges(64) if edge >= 40)]
        pairs = list(product(numbers, repeat=2))
        for kind in range(model.SUM, model.LOGARITHM + 1):
            elements = []
            for start in range(0, len(pairs), model.ROW):
                lefts, rights = zip(*pairs[start : start + model.ROW])
                fault, some = model.row([kind] * len(lefts), lefts, rights, (len(lefts),) * 3)
                self.assertEqual(fault, 0)
                elements += some
            for (left, right), (number, mark, code) in zip(pairs, elements, strict=True):
                single = rows.Operation(64, kind, left, right)
                self.assertEqual(single.line(), rows.line([code, 0, mark, number]), single.words())

    def test_powers_and_logarithms_at_8_bits(self):
        for base in range(256):
            for other in range(256):
                self.assertEqual(model.power(255, base, other), model.checked(255, base**other))
                if base >= 2:
                    e = model.logarithm(base, other)
                    self.assertTrue(other < base**e * base and (base**e <= other or other == e == 0))

    def test_runs_over_true_numbers_at_8_bits(self):
        """A run with an allowance of any size, with a ceiling of 300,000 binary digits."""
        dice = cases.Dice(8)
        for _ in range(1500):
            kinds, numbers = cases.some_recipe(dice, 8, cases.some_length(dice))
            total = cases.total_steps(8, kinds, numbers)
            for allowance in (cases.some_allowance(dice, total), total):
                by_steps = model.run_by_steps(255, kinds, numbers, allowance)
                self.assertEqual(by_steps, model.run_by_meaning(255, kinds, numbers, allowance, FAR))

    def test_readings_are_the_machine_s_floats(self):
        """A reading's exact number, whether it is usable and whether it is whole, against Python's own floats."""
        dice = cases.Dice(32)
        some = [dice.bits(32) for _ in range(3000)] + [cases.some_whole(dice) for _ in range(500)]
        for bits in (*some, *cases.NOT_WHOLE, *cases.WHOLE, *cases.NANS, *cases.INFINITIES):
            (number,) = struct.unpack("<f", bits.to_bytes(4, "little"))
            self.assertEqual(model.is_usable(bits), math.isfinite(number))
            whole = math.isfinite(number) and number.is_integer() and 0 <= number < 2**24
            self.assertEqual(model.whole_by_bits(bits), whole)
            if math.isfinite(number):
                self.assertEqual(Fraction(model.exact(bits), model.UNIT), Fraction(number))
                self.assertEqual(model.whole_by_number(bits), whole)

    def test_order_is_that_of_the_numbers(self):
        numbers = sorted({*cases.SIZES, *(cases.SIGN + size for size in cases.SIZES), *cases.WHOLE, *cases.NOT_WHOLE})
        for a in numbers:
            for b in numbers:
                self.assertEqual(model.order(a) < model.order(b), model.exact(a) < model.exact(b))

    def test_bound_is_reached(self):
        for case in cases.longest_runs():
            n = len(case.kinds)
            if case.allowance == cases.MOST:
                self.assertEqual(cases.total_steps(case.width, case.kinds, case.numbers), n + case.width * (n // 2))


class Makers(unittest.TestCase):
    def test_rich_runs_are_well_formed(self):
        for width, words in cases.RICH_RUNS:
            self.assertEqual(model.shape(width, *cases.recipe(words)), (0, 0), words)

    def test_every_refusal_is_met(self):
        """Each number but 13, which no list of items can get: an operation leaves a value on the hand."""
        dice = cases.Dice(1)
        some = [maker(dice) for maker in cases.SOME for _ in range(2500) if maker is not cases.some_fit]
        met = {int(line.split()[0]) for line in rows.lines(some)}
        self.assertEqual(met, set(range(24)) - {13})

    def test_every_end(self):
        """One value or several are left, never none, where every sum finds two values to take."""
        met = set()
        for case in cases.every_end(12):
            hand = []
            for place, kind in enumerate(case.kinds):
                if kind == cases.LITERAL:
                    hand.append(place)
                elif len(hand) < 2:
                    expected = (10, place)
                    break
                else:
                    hand[-2:] = [place]
            else:
                self.assertTrue(hand, case.words())
                expected = (0, 0) if len(hand) == 1 else (12, len(case.kinds))
            self.assertEqual(model.shape(case.width, case.kinds, case.numbers), expected, case.words())
            met.add(expected[0])
        self.assertEqual(met, {0, 10, 12})

    def test_the_same_seed_gives_the_same_cases(self):
        first, second = cases.Dice(2), cases.Dice(2)
        for maker in cases.SOME:
            self.assertEqual(maker(first), maker(second))

    def test_every_case_has_words(self):
        dice = cases.Dice(3)
        for maker in cases.SOME:
            self.assertTrue(maker(dice).words())


def blocks_of(run):
    return [run[start : start + model.BLOCK] for start in range(0, len(run), model.BLOCK)]


def many(value):
    """The number that a checked value of 8 bits stands for, or many of those."""
    return (*range(256, 260), 511, 512, 2**16, 2**24) if value is OVERFLOWED else (value,)


def certainly(kind, left, right):
    """What an operation on whole numbers answers where no number is too large to be known."""
    code = model.refusal_of(max(left, right, 1), kind, left, right)
    return (code, 0) if code else (0, model.checked(255, model.worth(kind, left, right, FAR)))


if __name__ == "__main__":
    unittest.main()
