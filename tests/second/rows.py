"""The rows of recorded cases: of each case its bytes, the line that the model gives it, and itself in words.

Numbers in a case are little-endian: b is 1 byte, h 2, w 4, q 8. A list is its elements one after the other.

| first byte | then | the line |
|---|---|---|
| 1 run | b width, q allowance, h n, h k, n bytes of kinds, k q of numbers | code place mark number steps done phase x1 x2 x3 x4 x5, then mark and number of each of the 32 places |
| 2 scan | h n, h k, n q of numbers, k marks | code place least greatest width |
| 3 read | h n, h k, h j, n bytes of the block, to be read into k numbers, each 7777777, and j marks, each 9 | code place block-number count, then the k numbers and j marks afterwards |
| 4 search | w n, n bytes | code place found block-position place-in-block |
| 5 operation | b width, b kind 1 to 6, b left's mark, q left, b right's mark, q right | code place mark number |
| 6 signed | b width, b which (0 quotient, 1 remainder), q a, q b, in two's complement of 64 bits | code place sign size |
| 7 power-fit | q base, q exponent | 1 or 0 |
| 8 plain number | b width, b mark, q number | code place number |
| 9 write | b edition 1, w first block number, h n, h k, w j, n q of numbers, k marks, to be written to a run of j bytes, each 170 | code place length, then the j bytes afterwards |
| 10 level scan | h n, h k, n w of float bits, k ground marks | code place least greatest, these two as bits |
| 11 level to field | h n, h k, h i, h j, n w of float bits, k ground marks, to be turned into i numbers, each 7777777, and j marks, each 170 | code place, then the i numbers and j marks afterwards |
| 12 rows | h n, h k, h j, h a, h b, h c, n kinds, k q of lefts, j q of rights, to be worked out into a numbers, each 7777777, b marks and c codes, each 170 | code place, then the a numbers, b marks and c codes afterwards |

Lists are at most 4,096 elements, those of rows 9 to 12 at most 8,192, and runs of blocks at most 65,536 bytes. What an
answer doesn't have is 0.
"""
import struct
from typing import NamedTuple

import model

LIST, RUN = 4096, 65536
# The most elements of a list of rows 9 to 12.
FIELD = 8192
NUMBER_BEFORE, MARK_BEFORE, BYTE_BEFORE = 7777777, 9, 170


def pair(value):
    """A checked value as mark and number."""
    return (1, 0) if value is model.OVERFLOWED else (0, value)


def line(numbers):
    return " ".join(map(str, numbers))


def said(value):
    return "overflowed" if value is model.OVERFLOWED else str(value)


def quads(numbers):
    return struct.pack(f"<{len(numbers)}Q", *numbers)


def phase_numbers(phase):
    """The phase and its five numbers."""
    which, held = phase
    if which == 1:
        first, second, exponent = held
        return (1, *pair(first), *pair(second), exponent)
    return (which, *held, *[0] * (5 - len(held)))


class Run(NamedTuple):
    width: int
    allowance: int
    kinds: bytes
    numbers: tuple

    name = "run"

    def encode(self):
        head = struct.pack("<BBQHH", 1, self.width, self.allowance, len(self.kinds), len(self.numbers))
        return head + self.kinds + quads(self.numbers)

    def line(self):
        ran = model.run(self.width, self.kinds, self.numbers, self.allowance)
        hand = ran.hand + (0,) * (model.HAND - len(ran.hand))
        numbers = [ran.code, ran.place, *pair(ran.value), ran.steps, ran.done, *phase_numbers(ran.phase)]
        for value in hand:
            numbers += pair(value)
        return line(numbers)

    def words(self):
        if len(self.kinds) == len(self.numbers):
            items = " ".join(map(item_words, self.kinds, self.numbers))
        else:
            items = f"kinds {list(self.kinds)}, numbers {list(self.numbers)}"
        return f"run at width {self.width} with allowance {self.allowance}, {len(self.kinds)} items: {items}"


def item_words(kind, number):
    if kind == model.LITERAL:
        return str(number)
    word = model.KIND_WORDS[kind] if kind <= model.LOGARITHM else f"kind-{kind}"
    return word if number == 0 else f"{word}[number {number}]"


class Scan(NamedTuple):
    numbers: tuple
    marks: bytes

    name = "scan"

    def encode(self):
        return struct.pack("<BHH", 2, len(self.numbers), len(self.marks)) + quads(self.numbers) + self.marks

    def line(self):
        return line(model.scan(self.numbers, self.marks))

    def words(self):
        return f"scan of numbers {list(self.numbers)} with marks {list(self.marks)}"


class Read(NamedTuple):
    block: bytes
    room_numbers: int
    room_marks: int

    name = "read"

    def encode(self):
        return struct.pack("<BHHH", 3, len(self.block), self.room_numbers, self.room_marks) + self.block

    def line(self):
        code, number, numbers, marks = model.read(self.block, self.room_numbers, self.room_marks)
        numbers_after = numbers + [NUMBER_BEFORE] * (self.room_numbers - len(numbers))
        marks_after = list(marks) + [MARK_BEFORE] * (self.room_marks - len(marks))
        return line([code, 0, number, len(numbers), *numbers_after, *marks_after])

    def words(self):
        return f"read into {self.room_numbers} numbers and {self.room_marks} marks of {block_words(self.block)}"


def block_words(block):
    """What a reader of a difference wants to know of a block; its bytes are kept apart."""
    if len(block) != model.BLOCK:
        return f"{len(block)} bytes that are no block"
    marks = [(place, mark) for place, mark in enumerate(block[448:503]) if mark]
    check = int.from_bytes(block[508:], "little")
    return (
        f"a block (number {model.number_of_block(block)}, count {block[4]}, edition {block[5]}, zeros {list(block[6:8])}"
        f" and {list(block[503:508])}, places and marks {marks}, check {check} where {model.check_of(block)} is right)"
    )


class Search(NamedTuple):
    run: bytes

    name = "search"

    def encode(self):
        return struct.pack("<BI", 4, len(self.run)) + self.run

    def line(self):
        code, place, found = model.search(self.run)
        return line([code, place, *((1, *found) if found else (0, 0, 0))])

    def words(self):
        starts = range(0, len(self.run), model.BLOCK)
        blocks = (block_words(self.run[start : start + model.BLOCK]) for start in starts)
        return f"search of {len(self.run)} bytes: {', '.join(blocks)}"


class Operation(NamedTuple):
    width: int
    kind: int
    left: object
    right: object

    name = "operation"

    def encode(self):
        return struct.pack("<BBBBQBQ", 5, self.width, self.kind, *pair(self.left), *pair(self.right))

    def line(self):
        code, value = model.operation(model.limit(self.width), self.kind, self.left, self.right)
        return f"{code} 0 1 0" if value is model.OVERFLOWED else f"{code} 0 0 {value}"

    def words(self):
        return f"{model.KIND_WORDS[self.kind]} at width {self.width} of {said(self.left)} and {said(self.right)}"


class Signed(NamedTuple):
    width: int
    remainder: int
    a: int
    b: int

    name = "signed"

    def encode(self):
        return struct.pack("<BBBqq", 6, self.width, self.remainder, self.a, self.b)

    def line(self):
        code, number = model.signed(self.width, self.remainder, self.a, self.b)
        return f"{code} 0 {int(number < 0)} {abs(number)}"

    def words(self):
        which = "remainder" if self.remainder else "quotient"
        return f"signed {which} at width {self.width} of {self.a} by {self.b}"


class Fit(NamedTuple):
    base: int
    exponent: int

    name = "power-fit"

    def encode(self):
        return struct.pack("<BQQ", 7, self.base, self.exponent)

    def line(self):
        return str(int(model.power_fits(self.base, self.exponent)))

    def words(self):
        return f"whether {self.base} to the power of {self.exponent} fits 64 bits"


class Plain(NamedTuple):
    width: int
    value: object

    name = "plain number"

    def encode(self):
        return struct.pack("<BBBQ", 8, self.width, *pair(self.value))

    def line(self):
        code, number = model.plain(self.value)
        return f"{code} 0 {number}"

    def words(self):
        return f"the plain number at width {self.width} of {said(self.value)}"


class Write(NamedTuple):
    first: int
    numbers: tuple
    marks: bytes
    room: int

    name = "write"

    def encode(self):
        counts = len(self.numbers), len(self.marks), self.room
        return struct.pack("<BBIHHI", 9, model.EDITION, self.first, *counts) + quads(self.numbers) + self.marks

    def line(self):
        code, place, written = model.write(self.first, self.numbers, self.marks, self.room)
        return line([code, place, len(written), *written, *[BYTE_BEFORE] * (self.room - len(written))])

    def words(self):
        return (
            f"write from block {self.first} on to {self.room} bytes of {len(self.numbers)} numbers"
            f" {list(self.numbers)} with marks {list(self.marks)}"
        )


def words_of(numbers):
    return struct.pack(f"<{len(numbers)}I", *numbers)


def level_words(level, ground):
    return f"{len(level)} readings {' '.join(f'{bits:08x}' for bits in level)} with ground marks {list(ground)}"


class LevelScan(NamedTuple):
    level: tuple
    ground: bytes

    name = "level scan"

    def encode(self):
        return struct.pack("<BHH", 10, len(self.level), len(self.ground)) + words_of(self.level) + self.ground

    def line(self):
        return line(model.scan_level(self.level, self.ground))

    def words(self):
        return f"scan of {level_words(self.level, self.ground)}"


class Turn(NamedTuple):
    level: tuple
    ground: bytes
    room_numbers: int
    room_marks: int

    name = "level to field"

    def encode(self):
        counts = len(self.level), len(self.ground), self.room_numbers, self.room_marks
        return struct.pack("<BHHHH", 11, *counts) + words_of(self.level) + self.ground

    def line(self):
        code, place, numbers = model.turn(self.level, self.ground, self.room_numbers, self.room_marks)
        numbers_after = numbers + [NUMBER_BEFORE] * (self.room_numbers - len(numbers))
        marks_after = [0] * len(numbers) + [BYTE_BEFORE] * (self.room_marks - len(numbers))
        return line([code, place, *numbers_after, *marks_after])

    def words(self):
        rooms = f"{self.room_numbers} numbers and {self.room_marks} marks"
        return f"a field into {rooms} of {level_words(self.level, self.ground)}"


class Row(NamedTuple):
    kinds: bytes
    lefts: tuple
    rights: tuple
    room_numbers: int
    room_marks: int
    room_codes: int

    name = "rows"

    @property
    def rooms(self):
        return self.room_numbers, self.room_marks, self.room_codes

    def encode(self):
        head = struct.pack("<B6H", 12, len(self.kinds), len(self.lefts), len(self.rights), *self.rooms)
        return head + self.kinds + quads(self.lefts) + quads(self.rights)

    def line(self):
        code, elements = model.row(self.kinds, self.lefts, self.rights, self.rooms)
        numbers = [code, 0]
        for place, (room, before) in enumerate(zip(self.rooms, (NUMBER_BEFORE, BYTE_BEFORE, BYTE_BEFORE))):
            numbers += [element[place] for element in elements] + [before] * (room - len(elements))
        return line(numbers)

    def words(self):
        return (
            f"row into {self.room_numbers} numbers, {self.room_marks} marks and {self.room_codes} codes of kinds"
            f" {list(self.kinds)}, lefts {list(self.lefts)} and rights {list(self.rights)}"
        )


ROWS = (Run, Scan, Read, Search, Operation, Signed, Fit, Plain, Write, LevelScan, Turn, Row)


def encode(cases):
    return b"".join(case.encode() for case in cases)


def lines(cases):
    return [case.line() for case in cases]


def counts(cases):
    """How many cases of each row, in words."""
    found = dict.fromkeys((row.name for row in ROWS), 0)
    for case in cases:
        found[case.name] += 1
    return ", ".join(f"{name} {count}" for name, count in found.items())
