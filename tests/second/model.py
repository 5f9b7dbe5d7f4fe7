"""The rules once more, in Python's unlimited whole numbers: checked values, recipes, rows, fields, blocks and levels.

This is the second program's own reading of the rules; it shares nothing with the crates. What is cheap to say in two
ways is said in two ways here, and the two are compared on every case: an operation with an overflowed operand by its
rule and by numbers that the operand stands for, a recipe's shape by a walk and by the list of all its faults, a run by
single steps and by what it comes to, a row's operations by the rules and over whole numbers, a block's layout by
looking and by writing the block anew, a packing width by its rule and by counting, a field's blocks one by one and
value by value, a level by its readings' bits and by the exact numbers that they stand for.
Blocks that are written are also read back, searched, and written again.

A checked value is a number, or OVERFLOWED. A refusal is its number; 0 is none.
"""
from itertools import product
from operator import mul
from typing import NamedTuple

WIDTHS = (8, 16, 32, 64)
OVERFLOWED = None
LITERAL, SUM, PRODUCT, QUOTIENT, REMAINDER, POWER, LOGARITHM = range(7)
KIND_WORDS = ("literal", "sum", "product", "quotient", "remainder", "power", "logarithm")
ITEMS, HAND, ROW = 256, 32, 4096
BLOCK, VALUES, EDITION = 512, 55, 1

DIVISOR_ZERO, BASE_BELOW_TWO, IS_OVERFLOWED, SIGNED_QUOTIENT = 1, 2, 3, 4
WIDTH, LENGTHS, COUNT, KIND, LITERAL_LARGE, FEW_ON_HAND, HAND_FULL, SEVERAL_LEFT, NONE_LEFT = range(5, 14)
FIELD_EMPTY, MARK, BLOCK_SIZE, CHECK, LAYOUT, NO_ROOM, ALLOWANCE, BLOCK_NUMBER, UNUSABLE, NOT_WHOLE = range(14, 24)


def limit(width):
    """M, the largest number of a width."""
    return 2**width - 1


# Checked values and the six operations


def checked(most, number):
    """The checked value that stands for a whole number, where numbers up to `most` fit."""
    return number if number <= most else OVERFLOWED


def least(most, value):
    """The least number that a checked value stands for."""
    return most + 1 if value is OVERFLOWED else value


def power(most, base, exponent):
    """base ** exponent as a checked value, without working out what is far above `most`."""
    if base < 2 or exponent < 2:
        return checked(most, base ** min(exponent, 1))
    if (base.bit_length() - 1) * exponent > most.bit_length():
        return OVERFLOWED
    return checked(most, base**exponent)


def logarithm(base, argument):
    """The largest e with base ** e <= argument; 0 for the argument 0."""
    e, reached = 0, base
    while reached <= argument:
        e, reached = e + 1, reached * base
    return e


def operation_by_rules(most, kind, left, right):
    """A refusal's number, or 0, and the checked value, by what is said of overflowed operands."""
    if kind == SUM:
        return 0, checked(most, least(most, left) + least(most, right))
    if kind == PRODUCT:
        return 0, checked(most, least(most, left) * least(most, right))
    if kind == POWER:
        return 0, checked_power(most, left, right)
    if (right if kind == LOGARITHM else left) is OVERFLOWED:
        return IS_OVERFLOWED, 0
    if kind == LOGARITHM:
        if left is OVERFLOWED:
            return 0, 0
        return (0, logarithm(left, right)) if left >= 2 else (BASE_BELOW_TWO, 0)
    if right is OVERFLOWED:
        return 0, 0 if kind == QUOTIENT else left
    if right == 0:
        return DIVISOR_ZERO, 0
    return 0, left // right if kind == QUOTIENT else left % right


def checked_power(most, base, exponent):
    """A power of checked values: it is never refused."""
    if exponent == 0:
        return 1
    if base is OVERFLOWED or (exponent is OVERFLOWED and base > 1):
        return OVERFLOWED
    return base if exponent is OVERFLOWED else power(most, base, exponent)


def stands_for(most, value):
    """The number that a checked value stands for, or some of those."""
    return (most + 1, most + 2, 2 * most + 1, 3 * most + 7, (most + 1) ** 2) if value is OVERFLOWED else (value,)


def operation(most, kind, left, right):
    """The same; with an overflowed operand it must be what each number gives that the operands stand for."""
    answer = operation_by_rules(most, kind, left, right)
    if left is OVERFLOWED or right is OVERFLOWED:
        for some in product(stands_for(most, left), stands_for(most, right)):
            code = refusal_of(most, kind, *some)
            given = (code, 0) if code else (0, checked(most, worth(kind, *some, CEILING)))
            assert answer == given, f"the {KIND_WORDS[kind]} of {some} differs"
    return answer


def signed(width, remainder, a, b):
    """The truncating quotient of two whole numbers, or what it leaves."""
    if b == 0:
        return DIVISOR_ZERO, 0
    size = abs(a) // abs(b)
    quotient = size if (a < 0) == (b < 0) else -size
    if remainder:
        return 0, a - b * quotient
    if quotient > 2 ** (width - 1) - 1:
        return SIGNED_QUOTIENT, 0
    return 0, quotient


def power_fits(base, exponent):
    """Whether base ** exponent is at most 2 ** 64 - 1. From base 2 on, 64 factors are too many, and so are more."""
    if base < 2:
        return True
    return base ** min(exponent, 64) <= limit(64)


def plain(value):
    """The plain number of a checked value."""
    return (IS_OVERFLOWED, 0) if value is OVERFLOWED else (0, value)


# The shape of a recipe


def item_fault(most, kind, number, on_hand):
    """The refusal that an item gets with so many values on hand."""
    if kind > LOGARITHM or (kind != LITERAL and number != 0):
        return KIND
    if kind != LITERAL:
        return FEW_ON_HAND if on_hand < 2 else 0
    if number > most:
        return LITERAL_LARGE
    return HAND_FULL if on_hand == HAND else 0


def lists_fault(width, kinds, numbers):
    """What is refused before any item is looked at."""
    if width not in WIDTHS:
        return WIDTH
    if len(kinds) != len(numbers):
        return LENGTHS
    return 0 if 1 <= len(kinds) <= ITEMS else COUNT


def shape_by_walk(most, kinds, numbers):
    """The first fault, and its place, by a walk that leaves at it."""
    on_hand = 0
    for place, (kind, number) in enumerate(zip(kinds, numbers)):
        fault = item_fault(most, kind, number, on_hand)
        if fault:
            return fault, place
        on_hand += 1 if kind == LITERAL else -1
    if on_hand == 1:
        return 0, 0
    return (SEVERAL_LEFT if on_hand else NONE_LEFT), len(kinds)


def shape_by_faults(most, kinds, numbers):
    """The same from the list of all faults, as if each place stood alone: the least by place and order is given."""
    literals = 0
    faults = []
    for place, (kind, number) in enumerate(zip(kinds, numbers)):
        on_hand = literals - (place - literals)
        known = kind <= LOGARITHM and (kind == LITERAL or number == 0)
        literal = kind == LITERAL
        faults += [(place, 0, KIND)] * (not known)
        faults += [(place, 1, LITERAL_LARGE)] * (literal and number > most)
        faults += [(place, 2, HAND_FULL)] * (literal and on_hand >= HAND)
        faults += [(place, 1, FEW_ON_HAND)] * (not literal and on_hand < 2)
        literals += literal
    left = literals - (len(kinds) - literals)
    faults += [(len(kinds), 0, SEVERAL_LEFT)] * (left > 1)
    faults += [(len(kinds), 0, NONE_LEFT)] * (left == 0)
    place, _, fault = min(faults, default=(0, 0, 0))
    return fault, place


def shape(width, kinds, numbers):
    """The refusal of a recipe before it runs, and its place; 0 and 0 where it is well formed."""
    fault = lists_fault(width, kinds, numbers)
    if fault:
        return fault, 0
    walked = shape_by_walk(limit(width), kinds, numbers)
    assert walked == shape_by_faults(limit(width), kinds, numbers), "the two shapes differ"
    return walked


# The run of a recipe


class Phase(NamedTuple):
    """Where a run stands: 0 between items, 1 within a power, 2 within a logarithm; and the numbers held."""

    which: int
    held: tuple


BETWEEN = Phase(0, ())


class Ran(NamedTuple):
    """The answer to a run. `hand` has the values on hand, bottom first, where the allowance was spent."""

    code: int
    place: int
    value: object
    steps: int
    done: int = 0
    phase: Phase = BETWEEN
    hand: tuple = ()


class Machine:
    """A run by single steps over checked values of the width."""

    def __init__(self, most, kinds, numbers):
        self.most, self.kinds, self.numbers = most, kinds, numbers
        self.hand, self.phase = [], BETWEEN
        self.steps = self.done = self.code = 0

    def finished(self):
        return self.code != 0 or self.done == len(self.kinds)

    def put(self, value):
        """An item's value goes on the hand, and the item is done."""
        self.hand.append(value)
        self.phase = BETWEEN
        self.done += 1

    def times(self, left, right):
        return operation_by_rules(self.most, PRODUCT, left, right)[1]

    def step(self):
        self.steps += 1
        if self.phase.which == 1:
            self.power_step(*self.phase.held)
        elif self.phase.which == 2:
            base, left, count = self.phase.held
            self.hold_logarithm(base, left // base, count + 1)
        else:
            self.begin(self.kinds[self.done], self.numbers[self.done])

    def begin(self, kind, number):
        if kind == LITERAL:
            self.put(number)
            return
        right, left = self.hand.pop(), self.hand.pop()
        # A power or a logarithm of numbers that fit is only asked for its refusal; its value comes by further steps.
        self.code, value = operation(self.most, kind, left, right)
        both_fit = left is not OVERFLOWED and right is not OVERFLOWED
        if self.code:
            return
        if kind == POWER and both_fit:
            self.hold_power(1, left, right)
        elif kind == LOGARITHM and both_fit:
            self.hold_logarithm(left, right, 0)
        else:
            self.put(value)

    def power_step(self, first, second, exponent):
        if exponent % 2 == 1:
            first = self.times(first, second)
        self.hold_power(first, self.times(second, second), exponent // 2)

    def hold_power(self, first, second, exponent):
        if exponent == 0:
            self.put(first)
        else:
            self.phase = Phase(1, (first, second, exponent))

    def hold_logarithm(self, base, left, count):
        if left < base:
            self.put(count)
        else:
            self.phase = Phase(2, (base, left, count))


def run_by_steps(most, kinds, numbers, allowance):
    machine = Machine(most, kinds, numbers)
    while not machine.finished() and machine.steps < allowance:
        machine.step()
    if machine.code:
        return Ran(machine.code, machine.done, 0, machine.steps)
    if machine.finished():
        return Ran(0, 0, machine.hand[0], machine.steps)
    return Ran(ALLOWANCE, machine.done, 0, machine.steps, machine.done, machine.phase, tuple(machine.hand))


def refusal_of(most, kind, left, right):
    """The refusal of an operation on whole numbers, told which numbers fit."""
    if kind in (QUOTIENT, REMAINDER):
        return IS_OVERFLOWED if left > most else DIVISOR_ZERO if right == 0 else 0
    if kind == LOGARITHM:
        return IS_OVERFLOWED if right > most else BASE_BELOW_TWO if left < 2 else 0
    return 0


# A whole number at least this large is written as this one: far above every width. min(n, CEILING) of a sum, a product
# or a power can be had from the operands so written; and a divisor or a base of a logarithm so written is above every
# number that fits. tests/second/selftest.py also runs with a ceiling far above this one.
CEILING = 2**160


def whole_power(base, exponent, ceiling):
    if base < 2 or exponent == 0:
        return base ** min(exponent, 1)
    if (base.bit_length() - 1) * exponent >= ceiling.bit_length():
        return ceiling
    return base**exponent


def worth(kind, left, right, ceiling):
    """What an operation comes to over whole numbers."""
    if kind == SUM:
        number = left + right
    elif kind == PRODUCT:
        number = left * right
    elif kind == QUOTIENT:
        number = left // right
    elif kind == REMAINDER:
        number = left % right
    elif kind == POWER:
        number = whole_power(left, right, ceiling)
    else:
        number = logarithm(left, right)
    return min(number, ceiling)


def further_steps(most, kind, left, right):
    """The steps of an operation after its first: the exponent's binary digits, or the logarithm, where both fit."""
    if left > most or right > most:
        return 0
    if kind == POWER:
        return right.bit_length()
    return logarithm(left, right) if kind == LOGARITHM else 0


def phase_after(most, kind, left, right, steps, ceiling):
    """What a power or a logarithm holds after so many further steps, each number by a formula of its own."""
    if kind == LOGARITHM:
        return Phase(2, (left, right // left**steps, steps))
    first = whole_power(left, right % 2**steps, ceiling)
    second = whole_power(left, 2**steps, ceiling)
    return Phase(1, (checked(most, first), checked(most, second), right // 2**steps))


def run_by_meaning(most, kinds, numbers, allowance, ceiling=CEILING):
    """The same answer from what each item comes to over unlimited whole numbers, and from how many steps it takes."""
    hand, spent = [], 0
    for place, (kind, number) in enumerate(zip(kinds, numbers)):
        if spent == allowance:
            return stopped(most, spent, place, BETWEEN, hand)
        if kind == LITERAL:
            hand.append(number)
            spent += 1
            continue
        right, left = hand.pop(), hand.pop()
        code = refusal_of(most, kind, left, right)
        if code:
            return Ran(code, place, 0, spent + 1)
        further = further_steps(most, kind, left, right)
        if spent + 1 + further > allowance:
            phase = phase_after(most, kind, left, right, allowance - spent - 1, ceiling)
            return stopped(most, allowance, place, phase, hand)
        spent += 1 + further
        hand.append(worth(kind, left, right, ceiling))
    return Ran(0, 0, checked(most, hand[0]), spent)


def stopped(most, steps, done, phase, hand):
    return Ran(ALLOWANCE, done, 0, steps, done, phase, tuple(checked(most, number) for number in hand))


def run(width, kinds, numbers, allowance):
    """The answer to a recipe with an allowance."""
    code, place = shape(width, kinds, numbers)
    if code:
        return Ran(code, place, 0, 0)
    most = limit(width)
    ran = run_by_steps(most, kinds, numbers, allowance)
    assert ran == run_by_meaning(most, kinds, numbers, allowance), "the two runs differ"
    assert 2 * ran.steps <= 2 * len(kinds) + width * (len(kinds) - 1), "more steps than the bound"
    return ran


# Rows of operations on numbers of 64 bits


def element_by_rules(kind, left, right):
    """What an operation of a row comes to: number, mark and code."""
    if kind not in range(SUM, LOGARITHM + 1):
        return 0, 0, KIND
    code, value = operation_by_rules(limit(64), kind, left, right)
    return (0, 1, 0) if value is OVERFLOWED else (value, 0, code)


def element_by_numbers(kind, left, right):
    """The same over whole numbers, of which one that is too large isn't shown."""
    code = refusal_of(limit(64), kind, left, right) if SUM <= kind <= LOGARITHM else KIND
    number = 0 if code else worth(kind, left, right, CEILING)
    return (0, 1, 0) if number > limit(64) else (number, 0, code)


def element(kind, left, right):
    three = element_by_rules(kind, left, right)
    assert three == element_by_numbers(kind, left, right), f"kind {kind} of {left} and {right} differs"
    return three


def row_fault_in_order(kinds, lefts, rights, rooms):
    """Why a row is refused, by the rules in their order."""
    if not len(kinds) == len(lefts) == len(rights):
        return LENGTHS
    if not 1 <= len(kinds) <= ROW:
        return COUNT
    return NO_ROOM if min(rooms) < len(kinds) else 0


def row_fault_by_faults(kinds, lefts, rights, rooms):
    """The same from all faults as if each stood alone. They are looked at in the order of their numbers."""
    faults = [LENGTHS for one in (kinds, lefts, rights) for other in (kinds, lefts, rights) if len(one) != len(other)]
    faults += [COUNT for each in (kinds, lefts, rights) if len(each) not in range(1, ROW + 1)]
    faults += [NO_ROOM for room in rooms for each in (kinds, lefts, rights) if room < len(each)]
    return min(faults, default=0)


def row(kinds, lefts, rights, rooms):
    """Refusal, and number, mark and code of each operation; `rooms` are the lengths of the three lists for them."""
    fault = row_fault_in_order(kinds, lefts, rights, rooms)
    assert fault == row_fault_by_faults(kinds, lefts, rights, rooms), "the two refusals of a row differ"
    return fault, [] if fault else [element(*each) for each in zip(kinds, lefts, rights)]


# Fields


def place_fault(number, mark):
    if mark > 1 or (mark == 1 and number != 0):
        return MARK
    return IS_OVERFLOWED if mark == 1 else 0


def packing_width(least_number, greatest):
    """0 where the range is 0, and log(2, range) + 1 otherwise; counted too, as the smallest w with range < 2^w."""
    wide = greatest - least_number
    width = logarithm(2, wide) + 1 if wide else 0
    assert width == next(w for w in range(65) if wide < 2**w)
    return width


def scan(numbers, marks):
    """Refusal, place, least, greatest and packing width of a field."""
    if len(numbers) != len(marks):
        return LENGTHS, 0, 0, 0, 0
    if not numbers:
        return FIELD_EMPTY, 0, 0, 0, 0
    for place, mark in enumerate(marks):
        if mark:
            return place_fault(numbers[place], mark), place, 0, 0, 0
    lowest, highest = min(numbers), max(numbers)
    return 0, 0, lowest, highest, packing_width(lowest, highest)


# Blocks


def check_of(block):
    """The sum of each of the first 508 bytes times its place counted from 1."""
    return sum(map(mul, range(1, 509), block))


def with_check(block):
    """The same bytes with the check made right."""
    return bytes(block[:508]) + check_of(block).to_bytes(4, "little")


def make_block(number, values):
    """The block of a list of checked values."""
    unused = VALUES - len(values)
    numbers = b"".join((value or 0).to_bytes(8, "little") for value in values)
    marks = bytes(value is OVERFLOWED for value in values)
    head = number.to_bytes(4, "little") + bytes([len(values), EDITION, 0, 0])
    return with_check(head + numbers + bytes(8 * unused) + marks + bytes(unused) + bytes(5 + 4))


def number_of_block(block):
    return int.from_bytes(block[:4], "little")


def values_of(block):
    """The numbers and the marks of a block up to its count."""
    count = block[4]
    return [int.from_bytes(block[8 + 8 * i : 16 + 8 * i], "little") for i in range(count)], block[448 : 448 + count]


def layout_by_looking(block):
    count = block[4]
    if count > VALUES or block[5] != EDITION:
        return LAYOUT
    if any(block[6:8]) or any(block[8 + 8 * count : 448]) or any(block[448 + count : 508]):
        return LAYOUT
    numbers, marks = values_of(block)
    return LAYOUT if any(place_fault(number, mark) == MARK for number, mark in zip(numbers, marks)) else 0


def layout_by_writing(block):
    """A block has the layout exactly when writing what it holds anew gives the same bytes."""
    if block[4] > VALUES:
        return LAYOUT
    values = [OVERFLOWED if mark else number for number, mark in zip(*values_of(block))]
    return 0 if make_block(number_of_block(block), values) == with_check(block) else LAYOUT


def block_fault(block):
    """16, 17 or 18, or 0 for a sound block."""
    if len(block) != BLOCK:
        return BLOCK_SIZE
    if int.from_bytes(block[508:], "little") != check_of(block):
        return CHECK
    fault = layout_by_looking(block)
    assert fault == layout_by_writing(block), "the two layouts differ"
    return fault


def read(block, room_numbers, room_marks):
    """Refusal, block number, and the numbers and marks that are written."""
    fault = block_fault(block)
    if fault == 0 and min(room_numbers, room_marks) < block[4]:
        fault = NO_ROOM
    if fault:
        return fault, 0, [], b""
    return 0, number_of_block(block), *values_of(block)


def search(run_of_blocks):
    """Refusal, its place, and the first overflowed value as block position and place in the block, or None."""
    if len(run_of_blocks) % BLOCK:
        return BLOCK_SIZE, 0, None
    for position in range(len(run_of_blocks) // BLOCK):
        block = run_of_blocks[BLOCK * position : BLOCK * position + BLOCK]
        fault = block_fault(block)
        if fault:
            return fault, position, None
        place = values_of(block)[1].find(1)
        if place >= 0:
            return 0, 0, (position, place)
    return 0, 0, None


# Writing a field into blocks


def blocks_for(count):
    """How many blocks so many values take."""
    return (count + VALUES - 1) // VALUES


def write_fault_in_order(first, numbers, marks, room):
    """Why a field isn't written to so many bytes, and where, by the rules in their order."""
    if len(numbers) != len(marks):
        return LENGTHS, 0
    if not numbers:
        return FIELD_EMPTY, 0
    for place, (number, mark) in enumerate(zip(numbers, marks)):
        if place_fault(number, mark) == MARK:
            return MARK, place
    blocks = blocks_for(len(numbers))
    if room < BLOCK * blocks:
        return NO_ROOM, 0
    return (BLOCK_NUMBER, 0) if first + blocks > 2**32 else (0, 0)


def write_fault_by_faults(first, numbers, marks, room):
    """The same from the list of all faults, as if each stood alone: the least by order and place is given."""
    last = (len(numbers) - 1) // VALUES
    pairs = enumerate(zip(numbers, marks))
    faults = [(2, place, MARK) for place, (number, mark) in pairs if mark not in (0, 1) or mark * number != 0]
    faults += [(0, 0, LENGTHS)] * (len(numbers) != len(marks))
    faults += [(1, 0, FIELD_EMPTY)] * (len(numbers) == 0)
    faults += [(3, 0, NO_ROOM)] * (room // BLOCK <= last)
    faults += [(4, 0, BLOCK_NUMBER)] * (limit(32) - first < last)
    _, place, fault = min(faults, default=(0, 0, 0))
    return fault, place


def written_by_blocks(first, numbers, marks):
    """The blocks of a field, one after the other."""
    values = [OVERFLOWED if mark else number for number, mark in zip(numbers, marks)]
    starts = range(0, len(values), VALUES)
    return b"".join(make_block(first + at, values[start : start + VALUES]) for at, start in enumerate(starts))


def written_by_values(first, numbers, marks):
    """The same bytes by where each value stands: its place in the field says block and place there."""
    run_of_blocks = bytearray(BLOCK * blocks_for(len(numbers)))
    for place, (number, mark) in enumerate(zip(numbers, marks)):
        position, within = divmod(place, VALUES)
        start = BLOCK * position
        run_of_blocks[start : start + 6] = *(first + position).to_bytes(4, "little"), within + 1, EDITION
        run_of_blocks[start + 8 + 8 * within : start + 16 + 8 * within] = number.to_bytes(8, "little")
        run_of_blocks[start + 448 + within] = mark
    for start in range(0, len(run_of_blocks), BLOCK):
        run_of_blocks[start + 508 : start + 512] = check_of(run_of_blocks[start : start + 508]).to_bytes(4, "little")
    return bytes(run_of_blocks)


def field_of(run_of_blocks):
    """The numbers of a run's blocks, and the numbers and marks that they hold, by the reader."""
    starts = range(0, len(run_of_blocks), BLOCK)
    reads = [read(run_of_blocks[start : start + BLOCK], VALUES, VALUES) for start in starts]
    assert all(fault == 0 for fault, _, _, _ in reads), "a written block is refused"
    numbers = [number for _, _, numbers, _ in reads for number in numbers]
    return [number for _, number, _, _ in reads], numbers, b"".join(marks for _, _, _, marks in reads)


def see_written(first, numbers, marks, run_of_blocks):
    """What a written run owes its reader."""
    block_numbers, held, held_marks = field_of(run_of_blocks)
    assert (held, held_marks) == (list(numbers), bytes(marks)), "another field is read back"
    assert block_numbers == list(range(first, first + len(block_numbers))), "the blocks have other numbers"
    assert written_by_blocks(block_numbers[0], held, held_marks) == run_of_blocks, "written again it differs"
    place = bytes(marks).find(1)
    found = (0, 0, divmod(place, VALUES) if place >= 0 else None)
    assert search(run_of_blocks) == found, "the search finds another place than the field's first overflowed one"


def write(first, numbers, marks, room):
    """Refusal, its place, and the bytes that are written to a run of so many, the first block having this number."""
    fault, place = write_fault_in_order(first, numbers, marks, room)
    assert (fault, place) == write_fault_by_faults(first, numbers, marks, room), "the two refusals of a writing differ"
    if fault:
        return fault, place, b""
    run_of_blocks = written_by_blocks(first, numbers, marks)
    assert run_of_blocks == written_by_values(first, numbers, marks), "the two writings differ"
    see_written(first, numbers, marks, run_of_blocks)
    return 0, 0, run_of_blocks


# Levels: a reading is the 32 bits of a float

SIGN = 2**31
INFINITY = 0x7F800000
# 1 as an exact number.
UNIT = 2**149


def is_usable(bits):
    """Neither NaN nor infinite: the digits of the exponent aren't all 1."""
    return bits >> 23 & 255 != 255


def exact(bits):
    """The number that a usable reading stands for, times 2 ** 149: so it is a whole number, however small."""
    exponent, digits = bits >> 23 & 255, bits % 2**23
    size = (2**23 + digits) << (exponent - 1) if exponent else digits
    return -size if bits & SIGN else size


def order(bits):
    """Where a usable reading stands by sign and bits, the two zeros in one place."""
    size = bits % SIGN
    return -size if bits & SIGN else size


def extent_by_bits(level):
    """The least and the greatest reading; of equals both functions give the first."""
    return min(level, key=order), max(level, key=order)


def extent_by_numbers(level):
    numbers = [exact(bits) for bits in level]
    return level[numbers.index(min(numbers))], level[numbers.index(max(numbers))]


def bits_of_whole(number):
    """The bits of a whole number from 1 to 2 ** 24 - 1."""
    length = number.bit_length()
    return ((126 + length) << 23) + (number << (24 - length)) - 2**23


def whole_by_number(bits):
    """Whether a usable reading is a whole number from 0 to 2 ** 24 - 1."""
    return exact(bits) % UNIT == 0 and 0 <= exact(bits) // UNIT < 2**24


def whole_by_bits(bits):
    """The same of any reading: it is a zero, or the bits are those of the number that is left without a fraction."""
    exponent = bits >> 23
    if bits % SIGN == 0:
        return True
    return 127 <= exponent <= 150 and bits_of_whole((2**23 + bits % 2**23) >> (150 - exponent)) == bits


def level_fault_in_order(level, ground, room, whole):
    """Why a level is refused, and where, by the rules in their order: without room for a field, and for readings that
    aren't whole only where it is to be turned into one."""
    if len(level) != len(ground):
        return LENGTHS, 0
    if not level:
        return FIELD_EMPTY, 0
    if room < len(level):
        return NO_ROOM, 0
    for place, (bits, mark) in enumerate(zip(level, ground)):
        if mark > 1:
            return MARK, place
        if not is_usable(bits):
            return UNUSABLE, place
        if whole and not whole_by_number(bits):
            return NOT_WHOLE, place
    return 0, 0


def level_fault_by_faults(level, ground, room, whole):
    """The same from the list of all faults, as if each stood alone: the least by order, place and order there."""
    faults = [(0, 0, 0, LENGTHS)] * (len(level) != len(ground))
    faults += [(1, 0, 0, FIELD_EMPTY)] * (len(level) == 0)
    faults += [(2, 0, 0, NO_ROOM)] * (room < len(level))
    faults += [(3, place, 0, MARK) for place, mark in enumerate(ground) if mark not in (0, 1)]
    faults += [(3, place, 1, UNUSABLE) for place, bits in enumerate(level) if bits % SIGN >= INFINITY]
    if whole:
        faults += [(3, place, 2, NOT_WHOLE) for place, bits in enumerate(level) if not whole_by_bits(bits)]
    _, place, _, fault = min(faults, default=(0, 0, 0, 0))
    return fault, place


def level_fault(level, ground, room, whole):
    fault = level_fault_in_order(level, ground, room, whole)
    assert fault == level_fault_by_faults(level, ground, room, whole), "the two refusals of a level differ"
    return fault


def scan_level(level, ground):
    """Refusal, place, and the bits of the least and the greatest reading. What is under the ground counts as well."""
    fault, place = level_fault(level, ground, len(level), False)
    if fault:
        return fault, place, 0, 0
    extent = extent_by_bits(level)
    assert extent == extent_by_numbers(level), "the two extents differ"
    return 0, 0, *extent


def turn(level, ground, room_numbers, room_marks):
    """Refusal, place, and the numbers of the field, whose marks are all 0."""
    fault, place = level_fault(level, ground, min(room_numbers, room_marks), True)
    if fault:
        return fault, place, []
    numbers = [exact(bits) // UNIT for bits in level]
    see_turned(level, ground, numbers)
    return 0, 0, numbers


def see_turned(level, ground, numbers):
    """What a field owes the level that it was made of."""
    back = [bits_of_whole(number) if number else 0 for number in numbers]
    assert all(b in (bits, bits - SIGN) for b, bits in zip(back, level)), "another level is turned back"
    _, _, least_number, greatest, _ = scan(numbers, bytes(len(numbers)))
    extent = [exact(bits) // UNIT for bits in scan_level(level, ground)[2:]]
    assert extent == [least_number, greatest], "the field has another range than the level"
