"""Makers of cases, random ones and ones at the boundaries. Each takes a Dice, so that a seed gives the same cases again."""
import random
import struct
from itertools import product
from math import isqrt

import model
from model import LITERAL, LOGARITHM, OVERFLOWED, POWER, PRODUCT, QUOTIENT, REMAINDER, ROW, SUM, WIDTHS, limit
from rows import FIELD, LIST, RUN, Fit, LevelScan, Operation, Plain, Read, Row, Run, Scan, Search, Signed, Turn, Write

MOST = limit(64)
ODD_WIDTHS = (0, 7, 8, 9, 16, 32, 63, 64, 255)


class Dice:
    """Random choices that stand on the generator's bits alone, so that they are the same in every Python."""

    def __init__(self, seed):
        self.bits = random.Random(seed).getrandbits

    def below(self, n):
        return self.bits(64) % n

    def between(self, low, high):
        return low + self.below(high - low + 1)

    def chance(self, percent):
        return self.below(100) < percent

    def pick(self, choices):
        return choices[self.below(len(choices))]

    def some_bytes(self, n):
        return bytes(self.bits(8) for _ in range(n))

    def shuffled(self, things):
        things = list(things)
        for i in range(len(things) - 1, 0, -1):
            j = self.below(i + 1)
            things[i], things[j] = things[j], things[i]
        return things


# Numbers


def edges(width):
    """Numbers of a width at which something changes."""
    most, root = limit(width), isqrt(limit(width))
    return (0, 1, 2, 3, 4, 7, 10, 16, root - 1, root, root + 1, most // 2, most // 2 + 1, most - 1, most)


def some_number(dice, width):
    """A number of a width: an edge, a small one, one beside a power of 2, or one with any count of digits."""
    way = dice.below(5)
    if way == 0:
        return dice.pick(edges(width))
    if way == 1:
        return dice.below(12)
    digits = dice.below(width + 1)
    if way == 2:
        return min(max(2**digits + dice.between(-1, 1), 0), limit(width))
    return dice.below(2**digits)


def some_value(dice, width):
    return OVERFLOWED if dice.chance(8) else some_number(dice, width)


def root_of(exponent):
    """The largest base whose power fits 64 bits, for an exponent of at least 1."""
    low, high = 1, 2**64
    while high - low > 1:
        middle = (low + high) // 2
        if model.power_fits(middle, exponent):
            low = middle
        else:
            high = middle
    return low


# Single operations


def operation_edges(widths=WIDTHS, numbers=edges):
    """Every kind on every pair of edges, overflowed ones too."""
    for width in widths:
        values = sorted(set(numbers(width))) + [OVERFLOWED]
        for kind in range(SUM, LOGARITHM + 1):
            for left in values:
                for right in values:
                    yield Operation(width, kind, left, right)


def some_operation(dice):
    return some_operation_of(dice, dice.pick(WIDTHS), dice.between(SUM, LOGARITHM), some_value)


def some_operation_of(dice, width, kind, operand):
    """A case of one kind at one width; `operand` makes its operands where they are not close to a limit."""
    if kind >= POWER and dice.chance(50):
        return near_power(dice, width, kind)
    if kind <= PRODUCT and dice.chance(40):
        return near_limit(dice, width, kind)
    return Operation(width, kind, operand(dice, width), operand(dice, width))


def near_power(dice, width, kind):
    """A power that is close to M, or a logarithm of a number beside a power."""
    most = limit(width)
    base = max(2, min(some_number(dice, width), isqrt(most)) if dice.chance(80) else some_number(dice, width))
    highest = model.logarithm(base, most)
    if kind == POWER:
        return Operation(width, kind, base, max(0, highest + dice.between(-1, 2)))
    argument = base ** dice.between(0, highest) + dice.between(-1, 1)
    return Operation(width, kind, base, min(argument, most))


def near_limit(dice, width, kind):
    """A sum or a product that is M, or close to it."""
    most = limit(width)
    left = max(1, some_number(dice, width))
    right = most - left if kind == SUM else most // left
    return Operation(width, kind, left, min(max(0, right + dice.between(-1, 1)), most))


def product_edges():
    """Products of 64 bits, in both orders: some beside 2^64, where what the low halves carry decides or the high halves
    do, and some far above it. The two cross products of the last pair come to 2^64 together."""
    factors = (2, 3, 5, 2**16 - 1, 2**16 + 1, 2**31, 2**32 - 2, 2**32 - 1, 2**32, 2**32 + 1, 2**33 - 1)
    beside = [(left, MOST // left + step) for left in factors for step in (-1, 0, 1)]
    above = [(2**63, 2**63), (2**63 + 1, 2**33), (2**48, 2**48 + 2**16), (MOST - 2**32, 2**32), (MOST // 3, MOST // 5)]
    crossed = (2**64 - 2**32 + 599479, 14329 * 2**32 + 2**32 - 1)
    for left, right in (*beside, *above, crossed):
        yield Operation(64, PRODUCT, left, right)
        yield Operation(64, PRODUCT, right, left)


def every_operation_at_8():
    """Every kind on every pair of values, overflowed ones too."""
    values = [*range(256), OVERFLOWED]
    return (Operation(8, kind, left, right) for kind in range(SUM, LOGARITHM + 1) for left in values for right in values)


# Signed numbers


def signed_edges(width):
    low, high = -(2 ** (width - 1)), 2 ** (width - 1) - 1
    return (low, low + 1, low // 2, -8, -7, -3, -2, -1, 0, 1, 2, 3, 7, 8, high // 2, high - 1, high)


def every_signed_edge(numbers=signed_edges):
    for width in WIDTHS:
        for remainder in (0, 1):
            for a in numbers(width):
                for b in numbers(width):
                    yield Signed(width, remainder, a, b)


def some_signed_number(dice, width):
    if dice.chance(30):
        return dice.pick(signed_edges(width))
    number = dice.below(2 ** dice.below(width))
    return -number - 1 if dice.chance(50) else number


def some_signed(dice):
    width = dice.pick(WIDTHS)
    a, b = some_signed_number(dice, width), some_signed_number(dice, width)
    if dice.chance(30) and abs(b) > 1:
        # A multiple of b, or a neighbour of one.
        a = min(max(a // b * b + dice.between(-1, 1), -(2 ** (width - 1))), 2 ** (width - 1) - 1)
    return Signed(width, dice.below(2), a, b)


def every_signed_at_8():
    numbers = range(-128, 128)
    return (Signed(8, remainder, a, b) for remainder in (0, 1) for a in numbers for b in numbers)


# Power-fit and plain numbers


def fit_edges():
    """Around the largest base of each exponent, below and past the table too, and huge exponents."""
    for exponent in (*range(71), 127, 128, 255, 256, 2**31, 2**32 - 1, 2**32, 2**32 + 2, 2**63, MOST - 1, MOST):
        root = root_of(exponent) if exponent else MOST
        for base in sorted({0, 1, 2, 3, root - 1, root, min(root + 1, MOST), MOST}):
            yield Fit(base, exponent)


def some_fit(dice):
    exponent = dice.below(72) if dice.chance(80) else some_number(dice, 64)
    if exponent and dice.chance(50):
        return Fit(max(0, min(root_of(exponent) + dice.between(-1, 1), MOST)), exponent)
    return Fit(some_number(dice, 64), exponent)


def plain_edges():
    for width in WIDTHS:
        for value in (*sorted(set(edges(width))), OVERFLOWED):
            yield Plain(width, value)


def some_plain(dice):
    width = dice.pick(WIDTHS)
    return Plain(width, some_value(dice, width))


# Recipes


def recipe(words):
    """Kinds and numbers of a recipe in words."""
    kinds, numbers = [], []
    for word in words.split():
        literal = word not in model.KIND_WORDS
        kinds.append(LITERAL if literal else model.KIND_WORDS.index(word))
        numbers.append(int(word) if literal else 0)
    return bytes(kinds), tuple(numbers)


SMALL_RUNS = (
    "255 1 sum",
    "255 1 sum 0 product",
    "0 255 1 sum product",
    "7 0 quotient",
    "255 1 sum 0 quotient",
    "2 7 power",
    "2 8 power",
    "16 1 power",
    "0 0 power",
    "2 255 logarithm",
    "10 0 logarithm",
    "1 5 logarithm",
)
# What is known with an overflowed operand, and what isn't, at 8 bits.
MADE_OVERFLOWED = "255 1 sum"
KNOWN_RUNS = (
    "7 255 1 sum quotient",
    "7 255 1 sum remainder",
    "255 1 sum 7 quotient",
    "255 1 sum 0 power",
    "0 255 1 sum power",
    "1 255 1 sum power",
    "2 255 1 sum power",
    "255 1 sum 1 power",
    "255 1 sum 255 1 sum power",
    "255 1 sum 7 logarithm",
    "255 1 sum 0 logarithm",
    "1 255 1 sum logarithm",
)
# Width and recipe: powers, logarithms and overflowed values within one another; the last is refused late.
RICH_RUNS = (
    (8, "3 2 5 power 7 remainder power 2 200 logarithm 1 power product 255 255 product 0 product sum"),
    (16, "2 15 power 2 product 0 product 3 10 power 3 65535 logarithm sum sum"),
    (32, "10 4294967295 logarithm 2 31 power 7 quotient remainder 0 4294967295 power sum 1 sum"),
    (64, "2 10 18446744073709551615 logarithm power 2 3 40 power logarithm 18446744073709551615 1 sum 0 product sum sum"),
    (64, "0 0 power 18446744073709551615 power 5 1 sum logarithm"),
)


def total_steps(width, kinds, numbers):
    return model.run(width, kinds, numbers, MOST).steps


def every_allowance(width, words):
    kinds, numbers = recipe(words)
    for allowance in (*range(total_steps(width, kinds, numbers) + 2), MOST):
        yield Run(width, allowance, kinds, numbers)


def every_recipe_at_8():
    """Every kind on every pair of values as a recipe: at every allowance where an operand is overflowed, and with
    enough steps where both fit."""
    fitting = [str(number) for number in range(256)]
    pairs = [*((left, MADE_OVERFLOWED) for left in fitting), *((MADE_OVERFLOWED, right) for right in fitting)]
    for left, right in (*pairs, (MADE_OVERFLOWED, MADE_OVERFLOWED)):
        for word in model.KIND_WORDS[SUM:]:
            yield from every_allowance(8, f"{left} {right} {word}")
    for kind in range(SUM, LOGARITHM + 1):
        kinds = bytes([LITERAL, LITERAL, kind])
        yield from (Run(8, MOST, kinds, (left, right, 0)) for left in range(256) for right in range(256))


def longest_runs(lengths=(1, 3, 5, 63, 255)):
    """Recipes that reach the bound on steps, n + W(n - 1)/2: powers of 1, each with M as its exponent."""
    for width in WIDTHS:
        for length in lengths:
            powers = length // 2
            kinds = bytes([LITERAL]) + bytes([LITERAL, POWER]) * powers
            numbers = (1,) + (limit(width), 0) * powers
            total = length + width * powers
            for allowance in (0, 1, total // 2, total - 1, total, total + 1, MOST):
                yield Run(width, allowance, kinds, numbers)


def deep_hands():
    """Hands of 31, 32 and 33 values, added up; and with a literal too large where the hand is full."""
    for depth in (31, 32, 33):
        kinds, numbers = bytes(depth) + bytes([SUM]) * (depth - 1), (3,) * depth + (0,) * (depth - 1)
        for allowance in (depth - 1, depth, depth + 1, 2 * depth - 2, 2 * depth - 1, MOST):
            yield Run(8, allowance, kinds, numbers)
        yield Run(8, MOST, kinds, numbers[: depth - 1] + (256,) + numbers[depth:])
    yield Run(64, 40, bytes(32) + bytes([POWER]) * 31, (2,) * 31 + (0,) + (0,) * 31)


def long_recipes():
    """Lengths around 0 and 256, equal or not."""
    for width in (0, 8, 64):
        for n in (0, 1, 255, 256, 257, LIST):
            kinds = (bytes([LITERAL]) + bytes([LITERAL, SUM]) * (n // 2 + 1))[:n]
            yield Run(width, MOST, kinds, (0,) * n)
            yield Run(width, 5, kinds, (0,) * min(n + 1, LIST))
            yield Run(width, 0, kinds, (0,) * max(n - 1, 0))


def known_widths():
    """The same recipes at widths that are known and at some that are not."""
    for width in ODD_WIDTHS:
        for words in ("1 1 sum", "255 1 sum", "300 2 product", "1 quotient", "1 1", "4294967296"):
            yield Run(width, 100, *recipe(words))
        yield Run(width, 100, b"", ())
        yield Run(width, 100, bytes(2), (1,))


def shape_faults():
    """Each fault of an item at the first, a middle and the last place, and each pair of them: which one wins."""
    kinds, numbers = recipe("1 2 sum 3 product 4 sum 5 2 power sum")
    places = (0, len(kinds) // 2, len(kinds) - 1)
    damages = [(place, damage) for place in places for damage in DAMAGES]
    for first in damages:
        yield Run(8, 100, *damaged(kinds, numbers, [first]))
        for second in damages:
            yield Run(8, 100, *damaged(kinds, numbers, [first, second]))


def every_end(most=8):
    """Every list of literals and sums up to so many items: one value is left, or several, or a sum has too few."""
    for length in range(1, most + 1):
        for kinds in product((LITERAL, SUM), repeat=length):
            yield Run(8, MOST, bytes(kinds), tuple(int(kind == LITERAL) for kind in kinds))


# What can be made wrong at an item: its kind and number. Literals in an operation's place, and the other way round,
# give 10, 11 or 12 somewhere.
DAMAGES = ((7, 0), (255, 1), (SUM, 1), (LITERAL, 256), (LITERAL, 1), (QUOTIENT, 0))


def damaged(kinds, numbers, damages):
    kinds, numbers = bytearray(kinds), list(numbers)
    for place, (kind, number) in damages:
        kinds[place], numbers[place] = kind, number
    return bytes(kinds), tuple(numbers)


def some_literal(dice, width):
    if dice.chance(45):
        return dice.pick((0, 0, 1, 1, 2, 2, 3, 5, 7, 10))
    return some_number(dice, width)


def seen_answer(most, kind, left, right, known):
    """What the maker of a recipe takes an operation to give. Without `known` kinds 3 to 6 count as refused wherever an
    operand is overflowed: so the recipes that are recorded stay as they were before such answers were known."""
    if not known and kind > PRODUCT and OVERFLOWED in (left, right):
        return model.IS_OVERFLOWED, 0
    return model.operation(most, kind, left, right)


def some_kind(dice, most, left, right, known):
    """An operation, mostly one that is not refused; often a product where something overflowed."""
    kind = dice.pick((SUM, PRODUCT, QUOTIENT, 4, POWER, POWER, LOGARITHM, LOGARITHM))
    if dice.chance(3) or seen_answer(most, kind, left, right, known)[0] == 0:
        return kind
    return dice.pick((SUM, PRODUCT, PRODUCT))


def some_recipe(dice, width, length, known=True):
    """A well-formed recipe of an odd length, built beside the hand that it leaves."""
    most, hand, kinds, numbers = limit(width), [], [], []
    deepest = dice.pick((3, 5, 8, 32))
    for done in range(length):
        must_work = len(hand) - 1 >= length - done or len(hand) >= deepest
        if len(hand) >= 2 and (must_work or dice.chance(45)):
            right, left = hand.pop(), hand.pop()
            kind, number = some_kind(dice, most, left, right, known), 0
            # After a refused item the rest only has to be well formed.
            hand.append(seen_answer(most, kind, left, right, known)[1])
        else:
            kind, number = LITERAL, some_literal(dice, width)
            hand.append(number)
        kinds.append(kind)
        numbers.append(number)
    return bytes(kinds), tuple(numbers)


def some_length(dice):
    """Mostly short, sometimes up to 255; odd, since a recipe that leaves one value is."""
    return 2 * dice.below(dice.pick((2, 4, 8, 16, 32, 128))) + 1


def some_allowance(dice, total):
    way = dice.below(4)
    if way == 0:
        return dice.pick((0, 1, max(total - 1, 0), total, total + 1, MOST))
    if way == 1:
        return some_number(dice, 64)
    return dice.below(total + 2)


def some_run(dice, known=True):
    way = dice.below(20)
    if way == 0:
        return bytes_as_recipe(dice)
    width = dice.pick(WIDTHS)
    kinds, numbers = some_recipe(dice, width, some_length(dice), known)
    if way <= 3:
        kinds, numbers = some_damage(dice, kinds, numbers)
        width = dice.pick(ODD_WIDTHS) if dice.chance(15) else width
    return Run(width, some_allowance(dice, total_steps(width, kinds, numbers)), kinds, numbers)


def some_damage(dice, kinds, numbers):
    """Wrong items at one to three places, and sometimes a list that is longer, shorter or cut off."""
    places = (0, len(kinds) // 2, len(kinds) - 1, dice.below(len(kinds)))
    damages = [(dice.pick(places), dice.pick(DAMAGES)) for _ in range(dice.between(0, 3))]
    kinds, numbers = damaged(kinds, numbers, damages)
    way = dice.below(8)
    if way == 0:
        return kinds, numbers + (0,)
    if way == 1:
        return kinds, numbers[:-1]
    if way == 2:
        return kinds[:-1], numbers[:-1]
    if way == 3:
        more = dice.between(20, 34)
        return bytes(more) + kinds, (1,) * more + numbers
    return kinds, numbers


def bytes_as_recipe(dice):
    """Any bytes and numbers at all."""
    n = dice.below(12)
    kinds = dice.some_bytes(n) if dice.chance(30) else bytes(dice.below(8) for _ in range(n))
    k = n if dice.chance(80) else dice.below(12)
    numbers = tuple(0 if dice.chance(60) else some_number(dice, 64) for _ in range(k))
    return Run(dice.pick(ODD_WIDTHS), some_number(dice, 64), kinds, numbers)


# Fields


def range_edges():
    """Ranges around each power of 2, from 0, from a number, and up to the largest."""
    for digits in range(65):
        for wide in sorted({2**digits - 1, min(2**digits, MOST), min(2**digits + 1, MOST)}):
            for low in sorted({0, min(3, MOST - wide), MOST - wide}):
                yield Scan((low, low + wide), bytes(2))
                yield Scan((low + wide, low + wide // 2, low), bytes(3))


def constant_fields():
    """One number everywhere, and the same but for the last, which is one more or less."""
    for number in (0, 1, 2**32, 2**63, MOST):
        for n in (1, 2, 55, 256):
            yield Scan((number,) * n, bytes(n))
            yield Scan((number,) * n + (number ^ 1,), bytes(n + 1))


# What can be wrong at a place of a field: its number and mark.
PLACE_FAULTS = ((0, 1), (0, 2), (0, 255), (1, 1), (MOST, 1), (5, 2))


def place_faults():
    """Each fault at each place of a short field, and each pair of them: which one wins."""
    places = (0, 2, 4)
    faults = [(place, fault) for place in places for fault in PLACE_FAULTS]
    for first in faults:
        for second in faults:
            yield field_with((9, 8, 7, 8, 9), [first, second])


def field_with(numbers, faults):
    numbers, marks = list(numbers), bytearray(len(numbers))
    for place, (number, mark) in faults:
        numbers[place], marks[place] = number, mark
    return Scan(tuple(numbers), bytes(marks))


def field_lengths():
    for n in (0, 1, 2, 55, 255, 256, 257):
        for k in sorted({0, max(n - 1, 0), n, n + 1}):
            yield Scan(tuple(range(7, 7 + n)), bytes(k))
            yield Scan((0,) * n, bytes([1]) * k)


def longest_fields():
    """Fields of as many places as a case may have, with a fault at either end."""
    for faults in ([], [(0, (0, 1))], [(LIST - 1, (0, 1))], [(LIST - 1, (0, 3)), (LIST - 2, (0, 1))]):
        yield field_with(range(1000, 1000 + LIST), faults)
    yield Scan((1,) * LIST, bytes(LIST - 1))
    yield Scan((1,) * (LIST - 1), bytes(LIST))


def some_scan(dice):
    n = dice.below(dice.pick((4, 12, 60, 300)))
    numbers = some_numbers(dice, n)
    if n == 0 or dice.chance(8):
        return Scan(numbers, bytes(max(0, n + dice.between(-1, 1))))
    if dice.chance(4):
        return Scan(numbers, dice.some_bytes(n))
    wrong = dice.between(1, 3) if dice.chance(40) else 0
    return field_with(numbers, [(dice.below(n), dice.pick(PLACE_FAULTS)) for _ in range(wrong)])


def some_numbers(dice, n):
    """Numbers of any size, or numbers close together, as a field's mostly are."""
    if dice.chance(40):
        return tuple(some_number(dice, 64) for _ in range(n))
    wide = 2 ** dice.below(64)
    low = dice.below(MOST - wide)
    return tuple(low + dice.below(wide + 1) for _ in range(n))


# Blocks


def some_values(dice, count, overflowed):
    """So many checked values; each is overflowed with a chance of so many in a hundred."""
    numbers = some_numbers(dice, count)
    return [OVERFLOWED if dice.chance(overflowed) else number for number in numbers]


def some_block(dice, overflowed=15):
    count = dice.pick((0, 1, 2, 54, 55)) if dice.chance(40) else dice.below(56)
    return model.make_block(dice.bits(32) >> dice.below(32), some_values(dice, count, overflowed))


def changed(block, place, byte, right_check):
    """A block with one byte set, its check made right again or left as it was."""
    block = block[:place] + bytes([byte]) + block[place + 1 :]
    return model.with_check(block) if right_check else block


def block_tables():
    """Block 0 with no values, with the one value 3, with one overflowed value; the smallest and the largest checks."""
    for values in ([], [3], [OVERFLOWED]):
        yield roomy(model.make_block(0, values))
    yield roomy(model.make_block(2**32 - 1, [MOST] * 55))
    yield roomy(model.make_block(1, [OVERFLOWED] * 55))
    yield roomy(model.with_check(bytes([255]) * 512))
    yield roomy(bytes(512))
    yield roomy(bytes([255]) * 512)


def roomy(block):
    return Read(block, 56, 56)


def block_damages(dice):
    """A byte of each region changed, with the check made right again and with the check left as it was."""
    regions = (0, 3, 4, 5, 6, 7, 8, 15, 16, 239, 240, 447, 448, 476, 477, 502, 503, 507, 508, 509, 510, 511)
    block = model.make_block(77, [OVERFLOWED if i == 5 else 1000 + i for i in range(29)])
    for place in (*regions, *(dice.below(512) for _ in range(20))):
        for byte in sorted({0, 1, 2, 255, block[place] ^ 1, block[place] ^ 128}):
            for right_check in (False, True):
                yield roomy(changed(block, place, byte, right_check))


def block_counts():
    """Each telling count over the same values, so that the unused ones are not zero where the count is smaller."""
    for written in (0, 1, 29, 54, 55):
        block = model.make_block(5, [7 + i for i in range(written)])
        for count in (0, 1, 28, 29, 30, 53, 54, 55, 56, 57, 127, 255):
            for right_check in (True, False):
                yield roomy(changed(block, 4, count, right_check))


def block_lengths():
    block = model.make_block(9, [1, 2, 3])
    for n in (0, 1, 4, 507, 508, 511, 512, 513, 1024, LIST):
        yield Read((block * 8)[:n], 3, 3)
        yield Read(bytes(n), 0, 0)


def block_rooms():
    """Lent lists that are shorter, equal and longer than the count; and those that come after another refusal."""
    for count in (0, 1, 29, 55):
        block = model.make_block(3, [OVERFLOWED if i % 9 == 4 else i for i in range(count)])
        rooms = sorted({0, max(count - 1, 0), count, count + 1, 60})
        for numbers in rooms:
            for marks in rooms:
                yield Read(block, numbers, marks)
        yield Read(changed(block, 5, 2, True), 0, 0)
        yield Read(changed(block, 5, 2, False), 0, 0)
        yield Read(block[:511], 0, 0)
    yield Read(model.make_block(3, [4]), LIST, LIST)


def some_bad_block(dice):
    """A block with one to three bytes changed; mostly its check is made right again."""
    block = some_block(dice)
    for _ in range(dice.between(1, 3)):
        place = dice.pick((4, 5, 6, 7, dice.below(440) + 8, dice.below(55) + 448, 503, 507, dice.below(512)))
        block = changed(block, place, dice.pick((0, 1, 2, 55, 56, 255, dice.bits(8))), False)
    return model.with_check(block) if dice.chance(75) else block


def some_read(dice):
    block = some_bad_block(dice) if dice.chance(50) else some_block(dice)
    if dice.chance(4):
        block = block[: dice.below(512)] if dice.chance(50) else block + dice.some_bytes(dice.between(1, 600))
    count = block[4] if len(block) > 4 else 0
    return Read(block, some_room(dice, count), some_room(dice, count))


def some_room(dice, count):
    return dice.pick((55, count, count + 1, 60, 56)) if dice.chance(85) else dice.below(count + 1)


# Runs of blocks


def quiet_blocks(dice, n):
    return [some_block(dice, overflowed=0) for _ in range(n)]


def found_places(dice):
    """One overflowed value in each block and place that tells, over runs of a few blocks; some with a second one."""
    for n in (1, 2, 3, 5):
        for position in range(n):
            for place in (0, 1, 27, 53, 54):
                blocks = quiet_blocks(dice, n)
                for at in {position, dice.between(position, n - 1)}:
                    blocks[at] = model.make_block(at, [OVERFLOWED if i == place else i for i in range(55)])
                yield Search(b"".join(blocks))


def bad_before_or_after(dice):
    """A bad block before, at and after the block with the overflowed value, with each reason."""
    for place, byte, right_check in ((100, 1, False), (5, 2, True), (4, 56, True), (448, 2, True), (507, 1, True)):
        for bad in range(3):
            blocks = quiet_blocks(dice, 3)
            blocks[1] = model.make_block(1, [4, OVERFLOWED, 5])
            blocks[bad] = changed(blocks[bad], place, byte, right_check)
            yield Search(b"".join(blocks))


def run_lengths(dice):
    block = model.make_block(1, [OVERFLOWED])
    for n in (0, 1, 511, 512, 513, 1023, 1024, 1025):
        yield Search((block * 3)[:n])
        yield Search((quiet_blocks(dice, 1)[0] * 3)[:n])


def longest_searches(dice):
    """Runs of 127 and 128 blocks: nothing found, found in the last place, and a bad last block."""
    blocks = quiet_blocks(dice, 127)
    last = model.make_block(128, [1] * 54 + [OVERFLOWED])
    yield Search(b"".join(blocks))
    yield Search(b"".join([*blocks, last]))
    yield Search(b"".join([*blocks, changed(last, 8, 255, False)]))
    yield Search((b"".join(blocks) + last)[:-1])


def some_search(dice):
    blocks = quiet_blocks(dice, dice.below(dice.pick((3, 6, 12, 12, 40))))
    for _ in range(dice.below(3)):
        if blocks:
            maker = some_bad_block if dice.chance(35) else some_block
            blocks[dice.below(len(blocks))] = maker(dice)
    run = b"".join(blocks)
    return Search(run[: dice.below(len(run) + 1)] if dice.chance(4) else run)


# Fields into blocks

# Around the values of one block and of two.
WRITTEN_LENGTHS = (0, 1, 2, 54, 55, 56, 109, 110, 111)
LAST_NUMBER = limit(32)
# What a writer refuses at a place: its number and mark.
BAD_MARKS = tuple((number, mark) for number, mark in PLACE_FAULTS if model.place_fault(number, mark) == model.MARK)


def bytes_for(count):
    """As many bytes as the blocks of so many values have."""
    return model.BLOCK * model.blocks_for(count)


def writing(first, values, more=0, faults=()):
    """A field of checked values with faults, and a run that has so many bytes more than the field's blocks, or less."""
    numbers, marks = [value or 0 for value in values], bytearray(value is OVERFLOWED for value in values)
    for place, (number, mark) in faults:
        numbers[place], marks[place] = number, mark
    return Write(first, tuple(numbers), bytes(marks), max(0, bytes_for(len(values)) + more))


def some_overflowed(count):
    return [OVERFLOWED if i % 9 == 4 else 1000 + i for i in range(count)]


def written_tables():
    """Block 0 with the one value 3, and with one overflowed value; the largest of all, and nothing but overflowed."""
    yield writing(0, [3])
    yield writing(0, [OVERFLOWED])
    yield writing(0, [0])
    yield writing(LAST_NUMBER, [MOST] * 55)
    yield writing(LAST_NUMBER - 1, [MOST] * 110)
    yield writing(0, [OVERFLOWED] * 56)


def written_rooms():
    """Fields of each telling length into a run that is shorter, just as long, and longer."""
    for n in WRITTEN_LENGTHS:
        for more in (-model.BLOCK, -1, 0, 1, model.BLOCK):
            if n or more >= 0:
                yield writing(7, some_overflowed(n), more)
        yield Write(7, tuple(range(n)), bytes(n), 0)


def written_numbers():
    """First numbers up to the last, with one block to three; and with too little room, which comes first."""
    for first in (0, 1, 255, 256, 2**16, 2**31, LAST_NUMBER - 2, LAST_NUMBER - 1, LAST_NUMBER):
        for n in (1, 55, 56, 110, 111):
            yield writing(first, some_overflowed(n))
            if first + n > LAST_NUMBER:
                yield writing(first, some_overflowed(n), -1)


def written_overflows():
    """One overflowed value at each telling place of a field in three blocks."""
    for place in (0, 1, 53, 54, 55, 56, 108, 109, 110):
        yield writing(3, [OVERFLOWED if i == place else MOST - i for i in range(111)])


def written_faults():
    """Each bad mark at each telling place, and each pair of them; with too little room and too large a number too."""
    for n, places in ((5, (0, 2, 4)), (56, (0, 54, 55))):
        faults = [(place, fault) for place in places for fault in BAD_MARKS]
        for first in faults:
            yield writing(1, some_overflowed(n), 0, [first])
            yield writing(LAST_NUMBER, some_overflowed(n), -bytes_for(n), [first])
            for second in faults if n == 5 else ():
                yield writing(1, some_overflowed(n), -bytes_for(n), [first, second])


def written_lists():
    """Lists that differ in length or are empty, alone and with every fault that comes after."""
    for n, k in ((0, 1), (1, 0), (1, 2), (55, 54), (55, 56), (56, 55), (0, 0)):
        for first in (0, LAST_NUMBER):
            for room in (0, 512):
                yield Write(first, (5,) * n, bytes(k), room)
                yield Write(first, (5,) * n, bytes([2]) * k, room)


def longest_writings():
    """The longest run and the longest lists that a case may have, what fits them and what is one past."""
    most = RUN // model.BLOCK * model.VALUES
    yield writing(LAST_NUMBER - 127, [OVERFLOWED if i % 3 else i for i in range(most)])
    yield writing(LAST_NUMBER - 126, [MOST - i for i in range(most)])
    yield writing(0, [MOST - i for i in range(most)])
    yield Write(0, (5,), bytes(1), RUN)
    yield Write(0, (1,) * (most + 1), bytes(most + 1), RUN)
    yield Write(0, tuple(range(FIELD)), bytes(FIELD), 3)
    yield Write(0, tuple(range(FIELD)), bytes(FIELD - 1) + b"\2", 3)
    yield Write(0, (1,) * FIELD, bytes(FIELD - 1), 3)
    yield Write(0, (1,) * (FIELD - 1), bytes(FIELD), 3)


def some_write(dice):
    """Mostly a field that is written; some have bad marks, lists that differ in length, or any bytes as marks."""
    n = dice.pick(WRITTEN_LENGTHS) if dice.chance(30) else dice.below(dice.pick((4, 60, 60, 120, 400)))
    first = dice.bits(32) >> dice.below(32) if dice.chance(75) else LAST_NUMBER - dice.below(4)
    more = dice.pick((0, 0, 0, 1, 511, 512, 700)) if dice.chance(88) else -dice.between(1, 600)
    values = some_values(dice, n, dice.pick((0, 0, 15, 60, 100)))
    wrong = dice.between(1, 3) if n and dice.chance(12) else 0
    case = writing(first, values, more, [(dice.below(n), dice.pick(BAD_MARKS)) for _ in range(wrong)])
    way = dice.below(25)
    if way == 0:
        return case._replace(marks=bytes(max(0, n + dice.pick((-1, 1)))))
    return case._replace(marks=dice.some_bytes(n)) if way == 1 else case


# Levels: readings as the bits of floats

ZERO, MINUS_ZERO, ONE, MINUS_ONE, HALF, ONE_AND_A_HALF = 0, 2**31, 0x3F800000, 0xBF800000, 0x3F000000, 0x3FC00000
# The smallest and the largest number below the normal ones, the smallest normal and the largest number.
TINY, SUBNORMAL, NORMAL, HUGE = 0x00000001, 0x007FFFFF, 0x00800000, 0x7F7FFFFF
SIGN = model.SIGN
INFINITIES = (0x7F800000, 0xFF800000)
# Quiet and signalling ones of both signs; the payload's first digit says which.
NANS = (0x7FC00000, 0xFFC00000, 0x7F800001, 0xFF800001, 0x7FBFFFFF, 0xFFBFFFFF, 0x7FFFFFFF, 0xFFFFFFFF, 0x7FC12345)
SIZES = (ZERO, TINY, TINY + 1, SUBNORMAL, NORMAL, HALF, ONE, ONE + 1, HUGE - 1, HUGE)
LAST_WHOLE = model.bits_of_whole(2**24 - 1)
PAST_WHOLE = LAST_WHOLE + 1
# Whole numbers that a field takes, and numbers beside them that it doesn't: a fraction, a sign, or one too large.
WHOLE_NUMBERS = (1, 2, 3, 255, 2**23 - 1, 2**23, 2**23 + 1, 2**24 - 2, 2**24 - 1)
WHOLE = (ZERO, MINUS_ZERO, *map(model.bits_of_whole, WHOLE_NUMBERS))
NOT_WHOLE = (
    HALF,
    ONE - 1,
    ONE + 1,
    ONE_AND_A_HALF,
    MINUS_ONE,
    TINY,
    MINUS_ZERO + TINY,
    SUBNORMAL,
    NORMAL,
    model.bits_of_whole(2**23) - 1,  # 8,388,607.5
    model.bits_of_whole(2**23) - 2**22 - 1,  # 6,291,455.5
    model.bits_of_whole(2**22) + 1,  # 4,194,304.5
    PAST_WHOLE,
    PAST_WHOLE + 1,
    LAST_WHOLE + SIGN,
    PAST_WHOLE + SIGN,
    model.bits_of_whole(2**23) + SIGN,
    0x4F800000,  # 2 ** 32
    0x5F800000,  # 2 ** 64
    HUGE,
    HUGE + SIGN,
)
# What can be wrong at a place of a level: its reading, its ground mark, or both.
BOTH_FAULTS = ((NANS[0], 2), (INFINITIES[1], 128))
LEVEL_FAULTS = (
    *((bits, mark) for bits in (*NANS[:4], *INFINITIES) for mark in (0, 1)),
    (ONE, 2),
    (MINUS_ZERO, 255),
    *BOTH_FAULTS,
)
TURN_FAULTS = (
    (NANS[0], 0),
    (INFINITIES[0], 1),
    (HALF, 0),
    (PAST_WHOLE, 1),
    (MINUS_ONE, 0),
    (ONE, 2),
    (HALF, 3),
    *BOTH_FAULTS,
)
# The scan works through a level in parts of so many readings.
PART = 4096
PART_LENGTHS = (1, 2, PART - 1, PART, PART + 1, FIELD)


def part_places(n):
    """The telling places of a level of so many readings: its ends, and where a part ends and the next begins."""
    return sorted({place for place in (0, 1, PART - 2, PART - 1, PART, PART + 1, n - 2, n - 1) if 0 <= place < n})


def level_with(level, faults=(), ground=None):
    """A scan of a level, in air where no ground is given, with other readings and marks at some places."""
    level, ground = list(level), bytearray(len(level) if ground is None else ground)
    for place, (bits, mark) in faults:
        level[place], ground[place] = bits, mark
    return LevelScan(tuple(level), bytes(ground))


def turning(scan, more_numbers=0, more_marks=0):
    """The same level into lists that have so many elements more than it, or fewer."""
    n = len(scan.level)
    return Turn(*scan, max(0, n + more_numbers), max(0, n + more_marks))


def single_readings():
    """Each telling reading alone, in air and under the ground, and in a field with room to spare."""
    for bits in sorted({*SIZES, *(SIGN + size for size in SIZES), *WHOLE, *NOT_WHOLE, *INFINITIES, *NANS}):
        for mark in (0, 1, 2):
            scan = level_with([bits], [(0, (bits, mark))])
            yield scan
            yield turning(scan, 1, 2 - mark)


def reading_pairs():
    """Each pair of telling numbers in both orders: the two zeros, subnormal and normal ones, both signs."""
    numbers = (*SIZES, *(SIGN + size for size in SIZES))
    for i, first in enumerate(numbers):
        for second in numbers[: i + 1]:
            yield level_with((first, second), ground=b"\0\1")
            yield level_with((second, first), ground=b"\1\0")


def zeros_in_a_row():
    """The two zeros in each order of three, alone, as the least and as the greatest; and equal readings."""
    for signs in range(8):
        zeros = [SIGN * (signs >> i & 1) for i in range(3)]
        yield level_with(zeros)
        for other in (ONE, MINUS_ONE, TINY, MINUS_ZERO + TINY):
            yield level_with([other, *zeros, other])
            yield level_with([*zeros[:2], other, zeros[2]])
        yield turning(level_with([ONE, *zeros]))
        yield turning(level_with(zeros), 2, 1)
    for bits in (ONE, MINUS_ONE, HUGE, HUGE + SIGN, SUBNORMAL):
        yield level_with([bits] * 3, ground=b"\0\1\0")


def level_place_faults():
    """Each fault at each place of a short level, and each pair of them: which one wins."""
    faults = [(place, fault) for place in (0, 2, 4) for fault in LEVEL_FAULTS]
    for first in faults:
        yield level_with((ONE, TINY, HUGE, ZERO, MINUS_ONE), [first], ground=b"\0\1\0\1\0")
    for first in faults:
        for second in faults[::3]:
            yield level_with((ONE, TINY, HUGE, ZERO, MINUS_ONE), [first, second])


def turn_place_faults():
    """The same for a field, with lists that are longer; and with too little room, which comes before all of them."""
    sound = (ONE, LAST_WHOLE, MINUS_ZERO, ZERO, ONE)
    faults = [(place, fault) for place in (0, 2, 4) for fault in TURN_FAULTS]
    for first in faults:
        yield turning(level_with(sound, [first], ground=b"\0\1\0\1\0"), 1, 2)
        yield turning(level_with(sound, [first]), -1, 0)
        yield turning(level_with(sound, [first]), 0, -5)
        for second in faults:
            yield turning(level_with(sound, [first, second]))


def level_lists():
    """Lists that differ in length or are empty, alone and with every fault that comes after."""
    for n, k in ((0, 1), (1, 0), (1, 2), (55, 54), (55, 56), (0, 0)):
        for bits in (ONE, HALF, NANS[0]):
            for mark in (0, 2):
                scan = LevelScan((bits,) * n, bytes([mark]) * k)
                yield scan
                for rooms in ((0, 0), (0, 3), (2, 0), (-1, 0), (0, -1)):
                    yield turning(scan, *rooms)


def turn_rooms():
    """Each of the two lists shorter than the level, just as long, and longer; what is past the level's length stays."""
    for n in (1, 2, 5, 55):
        level = [WHOLE[i % len(WHOLE)] for i in range(n)]
        for more_numbers in (-n, -1, 0, 1, 3):
            for more_marks in (-n, -1, 0, 1, 3):
                yield turning(level_with(level, ground=bytes(i % 2 for i in range(n))), more_numbers, more_marks)


def part_extents():
    """Levels of each telling length, with the least, the greatest, both, or the first zero of a kind at part ends."""
    for n in PART_LENGTHS:
        level = [ONE + i % 7 for i in range(n)]
        for place in part_places(n):
            yield level_with(level, [(place, (MINUS_ONE, 0))])
            yield level_with(level, [(place, (HUGE, 1))])
            # The first zero, with the other one behind it; nothing else is as small, or as large.
            for zero, other in ((ZERO, MINUS_ZERO), (MINUS_ZERO, ZERO)):
                behind = [(later, (other, 0)) for later in part_places(n) if later > place]
                yield level_with(level, [(place, (zero, 0)), *behind])
                yield level_with([bits + SIGN for bits in level], [(place, (zero, 1)), *behind])
            # Of equals the first, beyond a part's end too.
            yield level_with([TINY] * n, [(place, (ZERO, 0))])


def part_faults():
    """The first fault at part ends, with another behind it and numbers around it that would be least and greatest."""
    for n in PART_LENGTHS:
        level = [ONE + i % 7 for i in range(n)]
        for place in part_places(n):
            for bits, mark in ((NANS[2], 0), (INFINITIES[1], 1), (ONE, 2), (NANS[1], 255)):
                behind = [(n - 1, (ONE, 3))] if place < n - 1 else []
                yield level_with(level, [(0, (HUGE, 0)), *behind, (place, (bits, mark))])
    for bits, mark in ((NANS[0], 0), (ONE, 2)):
        faults = [(PART, (bits, mark)), (PART + 1, (ONE, 2)), (PART + 2, (NANS[0], 0))]
        yield level_with([ONE] * FIELD, faults)


def turned_at(n, place, reading):
    """A field of zeros with one other reading and mark."""
    return turning(level_with([ZERO] * n, [(place, reading)]))


def part_turns():
    """Fields of each telling length, with a whole number or a fault at part ends, and short lists."""
    for n in PART_LENGTHS:
        for place in part_places(n):
            for reading in ((LAST_WHOLE, 1), (HALF, 0), (NANS[2], 1), (ONE, 2), (PAST_WHOLE, 0)):
                yield turned_at(n, place, reading)
        yield turning(level_with([NANS[0]] * n), -n, 0)
        yield turning(level_with([NANS[0]] * n), 0, -n)
        yield turning(level_with([HALF] * n), -1, -n)


def few_part_turns():
    """Some of these: a field of many places has a long line, and a refused one the longest, since its lists stay."""
    yield turned_at(PART, PART - 1, (LAST_WHOLE, 0))
    yield turned_at(FIELD, PART, (LAST_WHOLE, 1))
    yield turned_at(PART + 1, PART, (HALF, 0))


def plateau(n=FIELD, place=None, bits=NANS[0]):
    """A level whose mountain is a plateau, all of one reading under the ground; at a place of it another reading."""
    level, ground = [0x43888000 + 64 * (i % 97) for i in range(n)], bytearray(n)
    for i in range(n // 4, 3 * n // 4):
        level[i], ground[i] = 0x43811000, 1
    if place is not None:
        level[place] = bits
    return LevelScan(tuple(level), bytes(ground))


def plateaus():
    """The accident of version two: one NaN in the plateau. And the same level without it."""
    yield plateau()
    for place in (FIELD // 4, FIELD // 2 - 1, FIELD // 2, FIELD // 2 + 1234, 3 * FIELD // 4 - 1):
        yield plateau(place=place)
    yield plateau(place=FIELD // 2 + 1, bits=INFINITIES[0])


def longest_levels():
    """Lists of as many elements as a case may have, and one fewer."""
    for n, k in ((FIELD, FIELD - 1), (FIELD - 1, FIELD), (FIELD, 0), (0, FIELD)):
        yield LevelScan((ONE,) * n, bytes(k))
        yield Turn((ONE,) * n, bytes(k), 1, 2)
    yield Turn((ONE,) * FIELD, bytes(FIELD), 1, 2)


def longest_rooms():
    yield Turn((ONE,), b"\1", FIELD, FIELD)
    yield Turn((HALF,), b"\0", FIELD, FIELD)


def some_reading(dice, way):
    """A usable reading: any, one close to 1, a small one, or a whole number."""
    if way == 0:
        return dice.below(model.INFINITY) + SIGN * dice.below(2)
    if way == 1:
        return ONE + dice.below(40) + SIGN * dice.below(2)
    if way == 2:
        return dice.below(3) + SIGN * dice.below(2)
    return some_whole(dice)


def some_whole(dice):
    if dice.chance(20):
        return dice.pick(WHOLE)
    number = dice.below(2 ** dice.between(1, 24))
    return model.bits_of_whole(number) if number else SIGN * dice.below(2)


def some_unusable(dice):
    """NaN with any payload, or infinite."""
    digits = dice.pick((0, 1, 2**22, dice.below(2**23)))
    return model.INFINITY + digits + SIGN * dice.below(2)


def some_ground(dice, n):
    return bytes(dice.below(2) for _ in range(n))


def some_level_length(dice):
    return dice.between(1, dice.pick((1, 4, 12, 60, 60, 300)))


def some_level_scan(dice):
    """Two in five are ranged; the others have up to three faults, or lists that differ or are empty."""
    n, way = some_level_length(dice), dice.below(4)
    scan = LevelScan(tuple(some_reading(dice, way) for _ in range(n)), some_ground(dice, n))
    which = dice.below(20)
    if which < 8:
        return scan
    if which < 10:
        return scan._replace(ground=scan.ground[1:] if dice.chance(50) else scan.ground + b"\2")
    if which < 12:
        return LevelScan((), b"")
    return level_with(scan.level, [some_fault_of(dice, n, ONE) for _ in range(dice.between(1, 3))], scan.ground)


def some_fault_of(dice, n, fine):
    """A place with an unusable reading, a bad mark, or both."""
    wrong = dice.below(3)
    bits = some_unusable(dice) if wrong != 1 else fine
    return dice.below(n), (bits, dice.below(2) if wrong == 0 else dice.between(2, 255))


def some_turn(dice):
    """Two in five are turned; the others have up to three faults, too little room, or lists that differ or are empty."""
    n, which = some_level_length(dice), dice.below(20)
    level, ground = tuple(some_whole(dice) for _ in range(n)), some_ground(dice, n)
    rooms = dice.pick((0, 0, 1, 5)), dice.pick((0, 0, 1, 5))
    if which < 8:
        return turning(LevelScan(level, ground), *rooms)
    if which < 9:
        return turning(LevelScan(level, ground[1:] if dice.chance(50) else ground + b"\2"), *rooms)
    if which < 10:
        return turning(LevelScan((), b""), *rooms)
    if which < 12:
        rooms = dice.pick(((-1, 0), (0, -1), (-n, 3), (3, -n), (-1, -1)))
    faults = [some_turn_fault(dice, n) for _ in range(dice.between(1, 3))]
    return turning(level_with(level, faults, ground), *rooms)


def some_turn_fault(dice, n):
    """The same, or a reading that isn't a whole number from 0 to 2 ** 24 - 1."""
    if dice.chance(60):
        return some_fault_of(dice, n, HALF if dice.chance(30) else ONE)
    return dice.below(n), (some_not_whole(dice), dice.below(2))


def some_not_whole(dice):
    """A telling one, a whole number and some fraction of 1, or any number that isn't whole."""
    bits = some_whole(dice) + 1 if dice.chance(50) else some_reading(dice, 0)
    return dice.pick(NOT_WHOLE) if dice.chance(40) or model.whole_by_bits(bits) else bits


# Rows of operations: a kind, a left and a right each

FITTING = (
    (SUM, 20, 3),
    (SUM, MOST, 0),
    (PRODUCT, 2**32 - 1, 2**32 + 1),
    (QUOTIENT, MOST, 10),
    (REMAINDER, MOST, 10),
    (POWER, 0, 0),
    (POWER, 2, 63),
    (LOGARITHM, 2, MOST),
    (LOGARITHM, 10, 0),
)
# None of these wraps to 0.
TOO_LARGE = ((SUM, MOST, 2), (PRODUCT, MOST, 2), (POWER, 3, 41))
REFUSED = ((QUOTIENT, 7, 0), (REMAINDER, 0, 0), (LOGARITHM, 1, 5), (LITERAL, 1, 2), (7, MOST, 2), (255, 0, 0))
TELLING = (*FITTING, *TOO_LARGE, *REFUSED)
KINDS_OF_A_ROW = (*range(SUM, LOGARITHM + 1), LITERAL, 7, 255)


def row_of(operations, more=(0, 0, 0)):
    """A row into lists that have so many elements more than it, or fewer."""
    kinds, lefts, rights = zip(*operations) if operations else ((), (), ())
    return Row(bytes(kinds), lefts, rights, *(max(0, len(operations) + each) for each in more))


def mixed_operations(n):
    """So many telling operations; 5 and how many there are have no common factor."""
    return [TELLING[5 * i % len(TELLING)] for i in range(n)]


def pairs_of_edges(kind, numbers):
    values = sorted(set(numbers(64)))
    return [(kind, left, right) for left in values for right in values]


def single_rows(numbers=edges):
    """Each kind on each pair of edges alone, which is a single operation's case."""
    for operation in (*TELLING, *(each for kind in KINDS_OF_A_ROW for each in pairs_of_edges(kind, numbers))):
        yield row_of([operation])


def rows_of_one_kind(numbers=edges):
    for kind in KINDS_OF_A_ROW:
        yield row_of(pairs_of_edges(kind, numbers))


def mixed_rows():
    """All kinds on all pairs of edges in one row, kind by kind and pair by pair; and every kind that a byte can be."""
    by_kind = [pairs_of_edges(kind, edges) for kind in KINDS_OF_A_ROW]
    yield row_of([operation for operations in by_kind for operation in operations])
    yield row_of([operation for operations in zip(*by_kind) for operation in operations], (1, 2, 3))
    yield row_of(mixed_operations(len(TELLING)))
    yield every_kind()


def every_kind():
    return row_of([(kind, 7, 2) for kind in range(256)])


def refused_places():
    """A refused, an overflowed and a fitting operation in every order, each where it must leave the others alone."""
    for refused, large in zip(REFUSED, TOO_LARGE * 2):
        for operations in product((FITTING[0], large, refused), repeat=3):
            yield row_of(operations, (0, 1, 2))
    yield row_of(REFUSED * 4)
    yield row_of(TOO_LARGE * 4)


def row_rooms(lengths=(1, 2, 55)):
    """Each of the three lists shorter than the row, just as long, and longer; what is past the row's length stays."""
    for n in lengths:
        for more in product((-n, -1, 0, 1, 3), repeat=3):
            yield row_of(mixed_operations(n), more)


def row_with_counts(counts, rooms):
    """Lists of so many kinds, lefts and rights."""
    kinds, lefts, rights = (tuple(each) for each in zip(*mixed_operations(max(1, *counts))))
    return Row(bytes(kinds[: counts[0]]), lefts[: counts[1]], rights[: counts[2]], *rooms)


def row_lists():
    """Lists of each telling length, equal or not, alone and with too little room, which comes after."""
    for counts in product((0, 1, 2), repeat=3):
        for rooms in ((0, 0, 0), (2, 2, 2), (1, 2, 2), (2, 1, 2), (2, 2, 1)):
            yield row_with_counts(counts, rooms)


def long_row_lists():
    """The same around the most operations of a row, and around the most elements of a case's list."""
    for counts in product((ROW, ROW + 1), repeat=3):
        for rooms in ((0, 0, 0), (3, FIELD, FIELD)):
            yield row_with_counts(counts, rooms)
    for counts in ((FIELD, FIELD, FIELD), (FIELD - 1, FIELD, FIELD), (FIELD, FIELD, FIELD - 1), (0, 0, FIELD)):
        yield row_with_counts(counts, (0, 1, 2))


def longest_rows():
    """Rows at the most operations, each of the three lists a place too short, just as long, and longer."""
    for n in (ROW - 1, ROW, ROW + 1):
        for more in ((0, 0, 0), (-1, 0, 0), (0, -1, 0), (0, 0, -1), (1, 2, 3), (-n, -n, -n)):
            yield row_of(mixed_operations(n), more)
    for kind in KINDS_OF_A_ROW:
        operations = pairs_of_edges(kind, edges)
        yield row_of((operations * (ROW // len(operations) + 1))[:ROW])
    # Only the last operation is another one.
    for last in TELLING:
        yield row_of([FITTING[0]] * (ROW - 1) + [last])
    yield Row(bytes([SUM]), (1,), (2,), FIELD, FIELD, FIELD)


def some_row_operation(dice, kind):
    if kind not in range(SUM, LOGARITHM + 1):
        return kind, some_number(dice, 64), some_number(dice, 64)
    case = some_operation_of(dice, 64, kind, some_number)
    return kind, case.left, case.right


def some_row_kind(dice):
    return dice.pick((0, 7, 8, 127, 128, 255, dice.bits(8))) if dice.chance(8) else dice.between(SUM, LOGARITHM)


def some_row_length(dice):
    """Mostly short, sometimes 0, or around the most operations of a row."""
    way = dice.below(40)
    if way == 0:
        return dice.between(ROW - 2, ROW + 2)
    return dice.between(1, dice.pick((1, 4, 12, 60, 60, 300))) if way > 1 else 0


def some_row(dice, length=some_row_length):
    """Mostly a row that is worked out, of all kinds or of one; some have lists that differ or are too short."""
    n = length(dice)
    one = some_row_kind(dice) if dice.chance(25) else None
    kinds = [some_row_kind(dice) if one is None else one for _ in range(n)]
    more = [dice.pick((0, 0, 0, 1, 5)) for _ in range(3)]
    if dice.chance(10):
        more[dice.below(3)] = -dice.between(1, max(1, n))
    case = row_of([some_row_operation(dice, kind) for kind in kinds], more)
    if dice.chance(92):
        return case
    longer = {"kinds": case.kinds + b"\1", "lefts": case.lefts + (1,), "rights": case.rights + (1,)}
    name = dice.pick(("kinds", "lefts", "rights"))
    return case._replace(**{name: longer[name] if dice.chance(50) else getattr(case, name)[:-1]})


SOME = (
    some_run,
    some_scan,
    some_read,
    some_search,
    some_operation,
    some_signed,
    some_fit,
    some_plain,
    some_write,
    some_level_scan,
    some_turn,
    some_row,
)


# Inputs that are no list of cases

SOUND = Operation(8, SUM, 1, 2)


def malformed():
    """Pairs of words and bytes: a sound case, then something that ends the replay, then mostly one more sound case."""
    yield from cut_short()
    for words, wrong in (*unknown_rows(), *past_the_sizes(), *not_allowed()):
        yield words, SOUND.encode() + wrong + SOUND.encode()


def unknown_rows():
    return ((f"a case whose first byte is {byte}", bytes([byte])) for byte in (0, 13, 14, 127, 128, 255))


def cut_short():
    """Each row cut after each of its first bytes, and before its last ones."""
    some = (
        Run(8, 9, *recipe("1 2 sum")),
        Scan((1, 2), bytes(2)),
        Read(model.make_block(1, [2]), 1, 1),
        Search(model.make_block(1, [2])),
        Operation(8, SUM, 1, 2),
        Signed(8, 0, -7, 2),
        Fit(2, 3),
        Plain(8, 5),
        Write(0, (1, 2), bytes(2), 512),
        LevelScan((ONE, HALF), bytes(2)),
        Turn((ONE, ZERO), bytes(2), 2, 3),
        Row(bytes([SUM, PRODUCT]), (1, 2), (3, 4), 2, 2, 3),
    )
    for case in some:
        whole = case.encode()
        for n in range(1, len(whole)):
            if n < 24 or n >= len(whole) - 2:
                yield f"a case of '{case.name}' cut off after {n} bytes", SOUND.encode() + whole[:n]


def past_the_sizes():
    """Sizes one past what is allowed, and the largest that can be written, with all the bytes that they ask for."""
    for more in (LIST + 1, 65535):
        size, none = more.to_bytes(2, "little"), bytes(2)
        yield "too many kinds", bytes([1, 8]) + bytes(8) + size + none + bytes(more)
        yield "too many numbers of a recipe", bytes([1, 8]) + bytes(8) + none + size + bytes(8 * more)
        yield "too many numbers of a field", bytes([2]) + size + none + bytes(8 * more)
        yield "too many marks of a field", bytes([2]) + none + size + bytes(more)
        yield "too many bytes of a block", bytes([3]) + size + none + none + bytes(more)
        yield "too much room for numbers", bytes([3]) + none + size + none
        yield "too much room for marks", bytes([3]) + none + none + size
    for more in (RUN + 1, 2**32 - 1):
        yield "too long a run of blocks", bytes([4]) + more.to_bytes(4, "little") + bytes(RUN + 1)
        yield "too long a run to write to", write_bytes(1, 1, 1, more) + bytes(9)
    for more in (FIELD + 1, 65535):
        yield "too many numbers to write", write_bytes(1, more, 0, 512) + bytes(8 * more)
        yield "too many marks to write", write_bytes(1, 0, more, 512) + bytes(more)
        yield "too many readings to scan", level_bytes(more, 0) + bytes(4 * more)
        yield "too many ground marks to scan", level_bytes(0, more) + bytes(more)
        yield "too many readings to turn", turn_bytes(more, 0, 1, 1) + bytes(4 * more)
        yield "too many ground marks to turn", turn_bytes(0, more, 1, 1) + bytes(more)
        yield "too much room for a level's numbers", turn_bytes(1, 1, more, 1) + bytes(5)
        yield "too much room for a level's marks", turn_bytes(1, 1, 1, more) + bytes(5)
        for place, (what, asked) in enumerate(
            (
                ("many kinds of a row", more),
                ("many lefts of a row", 8 * more),
                ("many rights of a row", 8 * more),
                ("much room for a row's numbers", 0),
                ("much room for a row's marks", 0),
                ("much room for a row's codes", 0),
            )
        ):
            yield f"too {what}", row_bytes(*(more if i == place else 0 for i in range(6))) + bytes(asked)


def not_allowed():
    """Rows 5, 6, 8 and 9 with a width, kind, mark, number or edition that the row does not allow."""
    for width in (0, 1, 7, 9, 15, 17, 31, 33, 63, 65, 128, 255):
        yield f"operation at width {width}", operation_bytes(width, 1, 0, 1, 0, 1)
        yield f"signed at width {width}", signed_bytes(width, 0, 1, 1)
        yield f"plain number at width {width}", plain_bytes(width, 0, 1)
    for kind in (0, 7, 255):
        yield f"operation of kind {kind}", operation_bytes(8, kind, 0, 1, 0, 1)
    for which in (2, 255):
        yield f"signed with the choice {which}", signed_bytes(8, which, 1, 1)
    for width, mark, number in values_not_allowed():
        words = f"at width {width}, mark {mark} with number {number}"
        yield f"plain number {words}", plain_bytes(width, mark, number)
        yield f"left operand {words}", operation_bytes(width, 2, mark, number, 0, 1)
        yield f"right operand {words}", operation_bytes(width, 2, 0, 1, mark, number)
    for width in (8, 16, 32):
        for number in (2 ** (width - 1), -(2 ** (width - 1)) - 1, 2**63 - 1, -(2**63)):
            yield f"signed {number} at width {width}", signed_bytes(width, 0, number, 1)
            yield f"signed 1 by {number} at width {width}", signed_bytes(width, 1, 1, number)
    for edition in (0, 2, 3, 255):
        yield f"edition {edition}", write_bytes(edition, 1, 1, 512) + bytes(9)


def values_not_allowed():
    for width in (8, 16, 32):
        yield width, 0, 2**width
        yield width, 0, MOST
    for width in WIDTHS:
        yield width, 2, 0
        yield width, 255, 1
        yield width, 1, 1


def operation_bytes(width, kind, left_mark, left, right_mark, right):
    return struct.pack("<BBBBQBQ", 5, width, kind, left_mark, left, right_mark, right)


def signed_bytes(width, which, a, b):
    return struct.pack("<BBBqq", 6, width, which, a, b)


def plain_bytes(width, mark, number):
    return struct.pack("<BBBQ", 8, width, mark, number)


def write_bytes(edition, number_count, mark_count, room):
    return struct.pack("<BBIHHI", 9, edition, 0, number_count, mark_count, room)


def level_bytes(reading_count, mark_count):
    return struct.pack("<BHH", 10, reading_count, mark_count)


def turn_bytes(reading_count, mark_count, room_numbers, room_marks):
    return struct.pack("<BHHHH", 11, reading_count, mark_count, room_numbers, room_marks)


def row_bytes(*counts):
    return struct.pack("<B6H", 12, *counts)
