#!/usr/bin/env python3
"""Calls the Python module on fresh cases and compares each line with that of the second program, tests/second.

    tests/python/agree.py [--seed N]

The cases are those of tests/second/fresh.py that the module has a function for: runs, scans, reads, searches, writes,
single operations on fitting numbers of 64 bits, signed ones of 64 bits, power-fits, levels, and rows, these also as
records. Each list is given in some form: a list, bytes, an array, memory that is only to be read, memory within a
larger array, and with numpy an array of the right type, of another type, of several dimensions, or with gaps. Ends with
1 at the first case that differs.
"""
import argparse
import ctypes
import struct
import sys
import time
from array import array
from pathlib import Path

ROOT = Path(__file__).resolve().parents[2]
sys.path[:0] = [str(ROOT / "python"), str(ROOT / "tests" / "second")]
import cases
import fresh
import model
import razovinto
import rows
from razovinto import OVERFLOWED, Refused

try:
    import numpy
except ImportError:
    numpy = None

# How many random cases of each row.
RANDOM = (3000, 1500, 1500, 500, 3000, 2000, 1000, 0, 600, 1500, 1500, 600)
GUARD = 3


# The forms of a list


def within(letter, given):
    """The same numbers in the middle of a larger array."""
    around = array(letter, [7] * GUARD)
    return memoryview(around + array(letter, given) + around)[GUARD : GUARD + len(given)]


def with_gaps(letter, given):
    apart = numpy.full(2 * len(given), 7, letter)
    apart[::2] = list(given)
    return apart[::2]


def of_type(letter):
    return lambda given: numpy.array(list(given), letter)


def byte_forms():
    yield from (bytes, bytearray, list, tuple)
    yield lambda given: array("B", given)
    yield lambda given: memoryview(bytes(given))
    yield lambda given: within("B", given)
    if numpy:
        yield from (of_type("u1"), of_type("i8"), lambda given: with_gaps("u1", given))


def number_forms():
    yield from (list, tuple)
    yield lambda given: array("Q", given)
    yield lambda given: memoryview(array("Q", given)).toreadonly()
    yield lambda given: within("Q", given)
    yield lambda given: memoryview(b"\7" + array("Q", given).tobytes())[1:].cast("Q")
    if numpy:
        yield from (of_type("u8"), lambda given: with_gaps("u8", given), lambda given: numpy.array(given, object))


def floats(bits):
    """The floats that have these bits, NaN with every payload too."""
    return array("f", array("I", bits).tobytes())


def in_rows(given):
    """The same items in an array of two dimensions, where they can stand so."""
    return given.reshape(2, -1) if given.size % 2 == 0 else given.reshape(1, -1)


def of_floats(letter):
    def form(bits):
        with numpy.errstate(invalid="ignore"):  # a signalling NaN becomes a quiet one
            return numpy.array(floats(bits), "f4").astype(letter)

    return form


def float_forms():
    """What takes the bits of readings."""
    yield floats
    yield lambda bits: floats(bits).tolist()
    yield lambda bits: tuple(floats(bits))
    yield lambda bits: array("d", floats(bits))
    yield lambda bits: memoryview(floats(bits)).toreadonly()
    yield lambda bits: within("I", bits).cast("B").cast("f")
    yield lambda bits: memoryview(b"\7" + floats(bits).tobytes())[1:].cast("f")
    if numpy:
        yield from (of_floats("f4"), of_floats(">f4"), of_floats("f8"), of_floats(object), of_floats("g"))
        yield lambda bits: numpy.frombuffer(floats(bits).tobytes() or b"", "f4")
        yield lambda bits: with_gaps("u4", bits).view("f4") if bits else []
        yield lambda bits: in_rows(of_floats("f4")(bits))
        yield lambda bits: numpy.asfortranarray(in_rows(of_floats("f4")(bits)))


def in_words(kinds):
    """The words of kinds that have one."""
    return [model.KIND_WORDS[kind] if 0 < kind < len(model.KIND_WORDS) else kind for kind in kinds]


def structured(kinds, lefts, rights, fields, **layout):
    """A numpy array of records of other types, or that lie in another way."""
    records = numpy.zeros(len(kinds), numpy.dtype(fields, **layout))
    records["kind"], records["left"], records["right"] = list(kinds), list(lefts), list(rights)
    return records


def own_records(*row):
    return structured(*row, razovinto.Operation)


def record_gaps(*row):
    apart = numpy.full(2 * len(row[0]), 7, razovinto.Operation)
    apart[::2] = own_records(*row)
    return apart[::2]


def askew_records(*row):
    """Operations one byte off an aligned place."""
    raw = numpy.zeros(ctypes.sizeof(razovinto.Operation) * len(row[0]) + 1, "u1")
    records = raw[1:].view(numpy.dtype(razovinto.Operation))
    records[:] = own_records(*row)
    return records


class Other(ctypes.Structure):
    _fields_ = [("right", ctypes.c_uint64), ("left", ctypes.c_uint64), ("kind", ctypes.c_uint16)]


def record_forms():
    """What takes the kinds, lefts and rights of equally many operations."""
    yield lambda *row: list(zip(*row))
    yield lambda *row: tuple(map(list, zip(*row)))
    yield lambda kinds, *numbers: list(zip(in_words(kinds), *numbers))
    yield lambda *row: (razovinto.Operation * len(row[0]))(*zip(*row))
    yield lambda *row: [razovinto.Operation(*each) for each in zip(*row)]
    yield lambda *row: (Other * len(row[0]))(*zip(*row[::-1]))
    if numpy:
        packed = [("kind", "u1"), ("left", "u8"), ("right", "u8")]
        swapped = [("right", ">u8"), ("kind", "i2"), ("left", ">u8")]
        flagged = [("kind", "u1"), ("flag", "u4"), ("left", "u8"), ("right", "u8")]
        yield from (own_records, record_gaps, askew_records)
        yield lambda *row: list(own_records(*row))
        yield lambda *row: in_rows(own_records(*row)) if row[0] else []
        yield lambda *row: numpy.asfortranarray(in_rows(own_records(*row))) if row[0] else []
        yield lambda *row: numpy.rec.array(own_records(*row))
        yield lambda *row: structured(*row, packed)
        yield lambda *row: structured(*row, swapped)
        yield lambda *row: structured(*row, flagged, align=True)
        yield lambda *row: structured(*row, [("kind", "O"), ("left", "O"), ("right", "O")])


BYTE_FORMS, NUMBER_FORMS, FLOAT_FORMS = tuple(byte_forms()), tuple(number_forms()), tuple(float_forms())
KIND_FORMS, RECORD_FORMS = (*BYTE_FORMS, in_words), tuple(record_forms())


# A case's lines: the model's, and what the module gives


def pair(value):
    return (1, 0) if value is OVERFLOWED else (0, value)


def phase_numbers(phase):
    if isinstance(phase, razovinto.WithinPower):
        return (1, *pair(phase.first), *pair(phase.second), phase.exponent)
    return (2, *phase, 0, 0) if phase else (0,) * 6


def run_line(given, width, recipe, allowance):
    try:
        ran = razovinto.run(width, recipe, allowance)
        code, place, value, state = 0, 0, ran.value, razovinto.State(ran.steps, 0, None, ())
    except Refused as refused:
        code, place, value, state = refused.number, refused.place, 0, refused.run
    numbers = [code, place, *pair(value), state.steps, state.done, *phase_numbers(state.phase)]
    for each in (*state.hand, *(0,) * (model.HAND - len(state.hand))):
        numbers += pair(each)
    return rows.line(numbers)


def words_of(case):
    """The recipe as words, where words can say it."""
    if len(case.kinds) == len(case.numbers) and all(k < 7 and not (k and n) for k, n in zip(case.kinds, case.numbers)):
        return [n if k == 0 else model.KIND_WORDS[k] for k, n in zip(case.kinds, case.numbers)]
    return None


def shape_line(width, recipe):
    try:
        return rows.line([0, 0, razovinto.shape(width, recipe)])
    except Refused as refused:
        return rows.line([refused.number, refused.place, 0])


def run_lines(dice, case):
    wanted = case.line()
    recipe = dice.pick(BYTE_FORMS)(case.kinds), dice.pick(NUMBER_FORMS)(case.numbers)
    yield wanted, run_line(case, case.width, recipe, case.allowance)
    code, place = model.shape(case.width, case.kinds, case.numbers)
    yield rows.line([code, place, 0 if code else model.limit(case.width)]), shape_line(case.width, recipe)
    words = words_of(case)
    if words is not None:
        yield wanted, run_line(case, case.width, words, case.allowance)
        yield wanted, run_line(case, case.width, tuple(map(str, words)), case.allowance)


def scan_line(*field):
    try:
        return rows.line([0, 0, *razovinto.scan(*field)])
    except Refused as refused:
        return rows.line([refused.number, refused.place, 0, 0, 0])


def as_one_thing(case):
    """A case's field as a Field; where its marks are right also as one list, and as a masked array."""
    yield razovinto.Field(case.numbers, case.marks)
    pairs = list(zip(case.numbers, case.marks))
    if len(case.numbers) == len(case.marks) and all(model.place_fault(*each) != model.MARK for each in pairs):
        yield [OVERFLOWED if mark else number for number, mark in pairs]
        if numpy:
            # What stands under a mask doesn't count.
            under = [9 if mark else number for number, mark in pairs]
            yield numpy.ma.MaskedArray(numpy.array(under, "u8"), mask=list(case.marks))


def scan_lines(dice, case):
    wanted = case.line()
    yield wanted, scan_line(dice.pick(NUMBER_FORMS)(case.numbers), dice.pick(BYTE_FORMS)(case.marks))
    for field in as_one_thing(case):
        yield wanted, scan_line(field)


class Rooms:
    """Lists that a case's values go to, numbers first and then bytes, with guards on both sides, which must stay."""

    def __init__(self, dice, byte, room_numbers, *rooms):
        self.whole = [array("Q", [5] * GUARD + [rows.NUMBER_BEFORE] * room_numbers + [5] * GUARD)]
        self.whole += [bytearray([5] * GUARD + [byte] * room + [5] * GUARD) for room in rooms]
        if numpy and dice.chance(50):
            self.whole = [numpy.array(each, "u1" if place else "u8") for place, each in enumerate(self.whole)]
        self.lent = [memoryview(each)[GUARD:-GUARD] for each in self.whole]

    def line(self, head):
        for each in self.whole:
            assert list(each[:GUARD]) == list(each[-GUARD:]) == [5] * GUARD, "a guard was written"
        return rows.line([*head, *(number for each in self.lent for number in each)])


def read_line(dice, case):
    rooms = Rooms(dice, rows.MARK_BEFORE, case.room_numbers, case.room_marks)
    try:
        block = razovinto.read(dice.pick(BYTE_FORMS)(case.block), *rooms.lent)
        return rooms.line([0, 0, block.number, block.count])
    except Refused as refused:
        return rooms.line([refused.number, refused.place, 0, 0])


def values_line(code, place, number, values):
    return rows.line([code, place, number, *(each for value in values for each in pair(value))])


def own_read_line(dice, case):
    try:
        block = razovinto.read(dice.pick(BYTE_FORMS)(case.block))
        assert len(block.numbers) == len(block.marks) == block.count, "own lists are of the count"
        return values_line(0, 0, block.number, block.values())
    except Refused as refused:
        return values_line(refused.number, refused.place, 0, ())


def values_of(block):
    return [OVERFLOWED if mark else number for number, mark in zip(*model.values_of(block))]


def read_lines(dice, case):
    yield case.line(), read_line(dice, case)
    fault = model.block_fault(case.block)
    whole = (0, 0, model.number_of_block(case.block), values_of(case.block)) if not fault else (fault, 0, 0, ())
    yield values_line(*whole), own_read_line(dice, case)
    try:
        yield str(fault), str(0 if razovinto.sound(dice.pick(BYTE_FORMS)(case.block)) is True else "not True")
    except Refused as refused:
        yield str(fault), str(refused.number)


def search_line(run):
    try:
        found = razovinto.search(run)
        return rows.line([0, 0, *((1, *found) if found else (0, 0, 0))])
    except Refused as refused:
        return rows.line([refused.number, refused.place, 0, 0, 0])


def whole_run(run):
    """What reading a run is to give."""
    if len(run) % model.BLOCK:
        return values_line(model.BLOCK_SIZE, 0, 0, ())
    blocks = [run[at : at + model.BLOCK] for at in range(0, len(run), model.BLOCK)]
    for position, block in enumerate(blocks):
        if model.block_fault(block):
            return values_line(model.block_fault(block), position, 0, ())
    return values_line(0, 0, 0, [value for block in blocks for value in values_of(block)])


def read_run_line(run, plain):
    try:
        field = razovinto.read_run(run, plain)
    except Refused as refused:
        return values_line(refused.number, refused.place, 0, ())
    if numpy and not plain:
        assert field.dtype == numpy.uint64 and field.mask.shape == field.shape and field.fill_value == 0
        assert not field.data[field.mask].any(), "an overflowed value has the number 0"
        return values_line(0, 0, 0, [OVERFLOWED if m else int(n) for n, m in zip(field.data, field.mask)])
    return values_line(0, 0, 0, field.values())


def search_lines(dice, case):
    yield case.line(), search_line(dice.pick(BYTE_FORMS)(case.run))
    wanted = whole_run(case.run)
    yield wanted, read_run_line(dice.pick(BYTE_FORMS)(case.run), False)
    yield wanted, read_run_line(dice.pick(BYTE_FORMS)(case.run), True)


def write_line(dice, case, *field):
    """The line of a write to a run that has guards on both sides, which must stay."""
    around = bytearray([5] * GUARD + [rows.BYTE_BEFORE] * case.room + [5] * GUARD)
    if numpy and dice.chance(50):
        around = numpy.array(around, "u1")
    room = slice(GUARD, GUARD + case.room)
    try:
        head = [0, 0, razovinto.write(case.first, *field, run=memoryview(around)[room])]
    except Refused as refused:
        head = [refused.number, refused.place, 0]
    assert list(around[:GUARD]) == list(around[-GUARD:]) == [5] * GUARD, "a guard was written"
    return rows.line([*head, *around[room]])


def own_write_line(first, *field):
    try:
        return rows.line([0, 0, *razovinto.write(first, *field)])
    except Refused as refused:
        return rows.line([refused.number, refused.place])


def write_lines(dice, case):
    def two_lists():
        return dice.pick(NUMBER_FORMS)(case.numbers), dice.pick(BYTE_FORMS)(case.marks)

    wanted = case.line()
    code, place, run = model.write(case.first, case.numbers, case.marks, cases.bytes_for(len(case.numbers)))
    yield wanted, write_line(dice, case, *two_lists())
    yield rows.line([code, place, *run]), own_write_line(case.first, *two_lists())
    for field in as_one_thing(case):
        yield wanted, write_line(dice, case, field)
    if code == 0:
        values = [OVERFLOWED if mark else number for number, mark in zip(case.numbers, case.marks)]
        written = razovinto.write(case.first, values)
        plain = dice.chance(50)
        yield values_line(0, 0, 0, values), read_run_line(written, plain)
        again = razovinto.write(case.first, razovinto.read_run(written, plain))
        yield rows.line([0, 0, *run]), rows.line([0, 0, *again])


def operation_lines(_, case):
    try:
        value = getattr(razovinto, model.KIND_WORDS[case.kind])(case.left, case.right)
        yield case.line(), rows.line([0, 0, *pair(value)])
    except Refused as refused:
        yield case.line(), rows.line([refused.number, refused.place, 0, 0])


def signed_lines(_, case):
    try:
        entry = razovinto.signed_remainder if case.remainder else razovinto.signed_quotient
        number = entry(case.a, case.b)
        yield case.line(), rows.line([0, 0, int(number < 0), abs(number)])
    except Refused as refused:
        yield case.line(), rows.line([refused.number, refused.place, 0, 0])


def fit_lines(_, case):
    fits = razovinto.power_fits(case.base, case.exponent)
    yield case.line(), str(int(fits)) if isinstance(fits, bool) else repr(fits)


def bits_of(number):
    return struct.unpack("=I", struct.pack("=f", number))[0]


def level_scan_line(*level):
    try:
        return rows.line([0, 0, *map(bits_of, razovinto.level_scan(*level))])
    except Refused as refused:
        return rows.line([refused.number, refused.place, 0, 0])


def level_scan_lines(dice, case):
    yield case.line(), level_scan_line(dice.pick(FLOAT_FORMS)(case.level), dice.pick(BYTE_FORMS)(case.ground))
    # Without marks all is air.
    wanted = model.scan_level(case.level, bytes(len(case.level)))
    yield rows.line(wanted), level_scan_line(dice.pick(FLOAT_FORMS)(case.level))


def turn_line(dice, case):
    rooms = Rooms(dice, rows.BYTE_BEFORE, case.room_numbers, case.room_marks)
    level = dice.pick(FLOAT_FORMS)(case.level), dice.pick(BYTE_FORMS)(case.ground)
    try:
        field = razovinto.level_to_field(*level, *rooms.lent)
    except Refused as refused:
        return rooms.line([refused.number, refused.place])
    count = len(case.level)
    assert len(field.numbers) == len(field.marks) == count, "the field's lists are as long as the level"
    assert [*field.numbers] == [*rooms.lent[0][:count]] and not any(field.marks), "the lent lists stand in the answer"
    return rooms.line([0, 0])


def own_turn_line(*level):
    try:
        field = razovinto.level_to_field(*level)
        assert len(field.marks) == len(field.numbers) and not any(field.marks), "own lists are of the level's length"
        return rows.line([0, 0, *field.numbers])
    except Refused as refused:
        return rows.line([refused.number, refused.place])


def turn_lines(dice, case):
    yield case.line(), turn_line(dice, case)
    for ground in (case.ground, None):
        marks = bytes(len(case.level)) if ground is None else ground
        code, place, numbers = model.turn(case.level, marks, len(case.level), len(case.level))
        given = () if ground is None else (dice.pick(BYTE_FORMS)(ground),)
        yield rows.line([code, place, *numbers]), own_turn_line(dice.pick(FLOAT_FORMS)(case.level), *given)


def row_line(dice, case, function, *operations):
    """The line of a row into lent lists."""
    rooms = Rooms(dice, rows.BYTE_BEFORE, *case.rooms)
    try:
        row = function(*operations, *rooms.lent)
    except Refused as refused:
        return rooms.line([refused.number, refused.place])
    for given, lent in zip(row, rooms.lent):
        assert [*given] == [*lent[: len(case.kinds)]], "the lent lists stand in the answer up to the row's length"
    return rooms.line([0, 0])


def own_row_line(dice, case, function, *operations):
    """The line of a row into lists of the module's own, each as long as the row."""
    plain = dice.chance(50)
    try:
        row = function(*operations, plain=plain)
    except Refused as refused:
        return rows.line([refused.number, refused.place])
    if numpy and not plain:
        assert [each.dtype for each in row] == [numpy.uint64, numpy.uint8, numpy.uint8], "numpy's lists"
    assert {len(each) for each in row} == {len(case.kinds)}, "own lists are of the row's length"
    return rows.line([0, 0, *(number for each in row for number in each)])


def row_lines(dice, case):
    def lists():
        return dice.pick(KIND_FORMS)(case.kinds), *(dice.pick(NUMBER_FORMS)(each) for each in (case.lefts, case.rights))

    n = len(case.kinds)
    own = case._replace(room_numbers=n, room_marks=n, room_codes=n)
    code = model.row(case.kinds, case.lefts, case.rights, own.rooms)[0]
    wanted, own_wanted = case.line(), rows.line([code, 0]) if code else own.line()
    yield wanted, row_line(dice, case, razovinto.row, *lists())
    yield own_wanted, own_row_line(dice, case, razovinto.row, *lists())
    if n == len(case.lefts) == len(case.rights):
        for records in (dice.pick(RECORD_FORMS)(case.kinds, case.lefts, case.rights) for _ in range(2)):
            yield wanted, row_line(dice, case, razovinto.row_of_records, records)
            yield own_wanted, own_row_line(dice, case, razovinto.row_of_records, records)


LINES = {
    rows.Run: run_lines,
    rows.Scan: scan_lines,
    rows.Read: read_lines,
    rows.Search: search_lines,
    rows.Operation: operation_lines,
    rows.Signed: signed_lines,
    rows.Fit: fit_lines,
    rows.Write: write_lines,
    rows.LevelScan: level_scan_lines,
    rows.Turn: turn_lines,
    rows.Row: row_lines,
}


def has_function(case):
    """Whether the module has a function for the case."""
    if isinstance(case, rows.Operation):
        return case.width == 64 and case.left is not model.OVERFLOWED and case.right is not model.OVERFLOWED
    return type(case) in LINES and (not isinstance(case, rows.Signed) or case.width == 64)


def some_fitting(dice):
    return cases.some_operation_of(dice, 64, dice.between(model.SUM, model.LOGARITHM), cases.some_number)


def some_signed(dice):
    return rows.Signed(64, dice.below(2), cases.some_signed_number(dice, 64), cases.some_signed_number(dice, 64))


def made(dice):
    makers = [*cases.SOME[:4], some_fitting, some_signed, *cases.SOME[6:]]
    random_ones = [maker(dice) for maker, count in zip(makers, RANDOM) for _ in range(count)]
    return dice.shuffled([*random_ones, *filter(has_function, fresh.boundaries(dice))])


def main():
    parser = argparse.ArgumentParser(description="fresh cases against the Python module")
    parser.add_argument("--seed", type=int, default=time.time_ns() % 2**32)
    seed = parser.parse_args().seed
    print(f"agree: seed {seed}, {'numpy ' + numpy.__version__ if numpy else 'without numpy'}", flush=True)
    dice = cases.Dice(seed)
    some = made(dice)
    lines = 0
    for case in some:
        for wanted, given in LINES[type(case)](dice, case):
            lines += 1
            if wanted != given:
                print(f"agree: seed {seed} differs\ncase:     {case.words()}\nexpected: {wanted}\ngiven:    {given}")
                print(fresh.first_number(wanted.split(), given.split()))
                sys.exit(1)
    print(f"agree: {len(some)} cases in {lines} lines agree ({rows.counts(some)})")


if __name__ == "__main__":
    main()
