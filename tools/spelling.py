#!/usr/bin/env python3
"""tools/spelling.py: after port.py, the repository's own names in today's spelling. Run once, at the top.

Definitions, fields and helpers are in snake case, modules in camel case. Laws keep their words joined by dashes, as
they had landed, also where port.py took a word of theirs for one of the library's. In must-fail edits, which port.py
leaves alone, the same names follow from the spelling that had landed.
"""
import os
import re
import sys

MODULES = {
    "whole.specs": {"div-mod": "DivMod", "logarithm": "Logarithm", "power": "Power"},
    "whole.proofs": {"div-mod": "DivMod", "logarithm": "Logarithm", "mul": "Mul", "power": "Power"},
    "checked.proofs": {"overflow": "Overflow"},
    "narrow.proofs": {"overflow": "Overflow"},
}

# A name as port.py leaves it, and as it is to be.
NAMES = """
Added-more added-more
Block-read block-read
Chained-same chained-same
Goes-Further goes-further
Going-on going-on
Item-refused item-refused
Laid-on laid-on
Passed-none passed-none
Signed-gives signed-gives
Stored-on stored-on
above_same above-same
added_none added-none
all-length all_length
all-so-far all_so_far
all-usable all_usable
allMore all_more
allWith all_with
all_Laid all-laid
all_done all-done
all_noted all-noted
all_quiet all-quiet
all_there all-there
answerAs answer_as
answerBack answer_back
answerCode answer_code
answerList answer_list
answerMeant answer_meant
answerOn answer_on
answer_at answer-at
answer_back answer-back
as_long as-long
as_seen as-seen
atFirstFault at_first_fault
at_first at-first
at_item at-item
at_length at-length
at_most at-most
at_none at-none
at_place at-place
at_places at-places
at_room at-room
at_some at-some
back_is back-is
base_same base-same
beforeCheck before_check
begunAs begun_as
below_power below-power
below_two below-two
bitsIn bits_in
bitsOfRank bits_of_rank
bits_back bits-back
bits_below bits-below
blockLength block_length
blockNumber block_number
blockSum block_sum
blocksFor blocks_for
blocksOf blocks_of
blocks_is blocks-is
bothOf both_of
both_hold both-hold
both_is both-is
both_stored both-stored
bottom-first bottom_first
byTest by_test
by_count by-count
by_digits by-digits
by_lengths by-lengths
by_number by-number
by_product by-product
by_rank by-rank
by_size by-size
by_tests by-tests
by_width by-width
by_zero by-zero
byte_past byte-past
bytes_below bytes-below
cast_is cast-is
chained_more chained-more
checkAt check_at
checkPut check_put
checkSum check_sum
checkedOf checked_of
clampOf clamp_of
clampedOf clamped_of
codeFor code_for
codesAfter codes_after
columnWeight column_weight
comes_back comes-back
countBefore count_before
countFrom count_from
countPut count_put
does_empty does-empty
drivenOf driven_of
editionOf edition_of
elementAt element_at
elementOf element_of
endFault end_fault
end_more end-more
end_refused end-refused
endedAt ended_at
ends_so ends-so
entryFor entry_for
entry_Gives entry-gives
eq_is eq-is
equal_or_not equal-or-not
every_more every-more
every_of every-of
extentAfter extent_after
extentBeside extent_beside
extentIn extent_in
extentOf extent_of
faultAs fault_as
faultAt fault_at
faultHere fault_here
faultOf fault_of
fieldBlock field_block
fieldMarks field_marks
fieldNumbers field_numbers
fine_before fine-before
firstAfter first_after
firstFault first_fault
firstFrom first_from
firstOverflowed first_overflowed
firstWith first_with
first_holds first-holds
float_known float-known
foundIn found_in
found_none found-none
fromBottom from_bottom
furtherAt further_at
furtherOn further_on
given_is given-is
given_so given-so
goes_on goes-on
goneOn gone_on
handAfter hand_after
handOf hand_of
handOn hand_on
hasHead has_head
hasLayout has_layout
hasLayoutAs has_layout_as
has_room has-room
headAt head_at
headPut head_put
head_byte head-byte
head_bytes head-bytes
heldAfter held_after
heldBefore held_before
held_All held-all
held_place held-place
inLogarithm in_logarithm
inPower in_power
in_block in-block
in_order in-order
is-mod-equivalent is_mod_equivalent
isOverflowed is_overflowed
isWholeAt is_whole_at
itemWith item_with
items_at items-at
keptFrom kept_from
keptOf kept_of
kept_at kept-at
kept_more kept-more
kept_whole kept-whole
knownWidth known_width
laidOver laid_over
largestBases largest_bases
le_is le-is
le_of le-of
least_fits least-fits
leftBy left_by
leftIn left_in
lends_again lends-again
lengthFor length_for
length_from length-from
length_marked length-marked
length_over length-over
length_part length-part
lengths_differ lengths-differ
limitFor limit_for
limitOf limit_of
limitVerdict limit_verdict
list_at list-at
literalFault literal_fault
log-of log_of
log-within log_within
logOf log_by
logarithmBegun logarithm_begun
logarithmOf logarithm_of
logarithmStep logarithm_step
lt_of lt-of
markAt mark_at
markBytes mark_bytes
markFault mark_fault
markFaultAt mark_fault_at
markFaults mark_faults
markWords mark_words
markedAt marked_at
marks-long marks_long
marksAfter marks_after
marksAfterAs marks_after_as
marksAt marks_at
marksBeside marks_beside
marksFine marks_fine
marksIn marks_in
marksPut marks_put
meaningFrom meaning_from
middleBy middle_by
minusInfinity minus_infinity
mostItems most_items
mostOnHand most_on_hand
neg_same neg-same
negativeZero negative_zero
new_is new-is
next_power next-power
noMarks no_marks
no_block no-block
no_digit no-digit
no_fraction no-fraction
no_item no-item
no_nan no-nan
no_place no-place
no_record no-record
no_size no-size
none_at_all none-at-all
none_before none-before
none_in none-in
none_is none-is
none_left none-left
none_of none-of
none_seen none-seen
not_itself not-itself
not_none not-none
not_short not-short
nothing_left nothing-left
nothing_written nothing-written
numberFrom number_from
numberPut number_put
number_fits number-fits
number_is number-is
number_read number-read
numbers-long numbers_long
numbersAfter numbers_after
numbersAfterAs numbers_after_as
numbersBeside numbers_beside
numbersIn numbers_in
numbersPut numbers_put
ofLevelScan of_level_scan
ofPhase of_phase
ofReading of_reading
ofRun of_run
ofScan of_scan
ofSearch of_search
ofShape of_shape
ofTurning of_turning
ofWriting of_writing
of_end of-end
of_field of-field
of_length of-length
of_one of-one
of_three of-three
onValues on_values
on_values on-values
one_and_a_half one-and-a-half
one_code one-code
one_left one-left
one_less one-less
one_more one-more
one_power one-power
one_value one-value
operationFault operation_fault
operationsOf operations_of
other_length other-length
other_way other-way
outcomeBack outcome_back
over_by over-by
over_none over-none
overflowedAt overflowed_at
packingWidth packing_width
part_at part-at
part_bytes part-bytes
parts_in parts-in
passed_on passed-on
passes_same passes-same
phaseBack phase_back
phaseIn phase_in
phaseList phase_list
phaseNumbers phase_numbers
phaseWords phase_words
placeOfRank place_of_rank
placeWellMarked place_well_marked
place_read place-read
placedAs placed_as
places-of-marks places_of_marks
places-of-numbers places_of_numbers
powerFits power_fits
powerOf power_of
powerStep power_step
powersKinds powers_kinds
powersNumbers powers_numbers
powersOf powers_of
productOf product_of
productsOf products_of
put_on put-on
quotient_fits quotient-fits
quotient_is quotient-is
raisedOf raised_of
reachOf reach_of
reachedBack reached_back
reachingKinds reaching_kinds
reachingNumbers reaching_numbers
readFault read_fault
readFaultAs read_fault_as
read_length read-length
readingAs reading_as
refusalAt refusal_at
refusalHere refusal_here
refusalOf refusal_of
refusalOn refusal_on
refusedAt refused_at
refused_as refused-as
remainderOf remainder_of
remainder_is remainder-is
resultBytes result_bytes
rightIn right_in
right_positive right-positive
roomOf room_of
room_for room-for
roundedOf rounded_of
rows-length rows_length
rows-small rows_small
rows-so-far rows_so_far
rowsMore rows_more
rowsWith rows_with
runAfter run_after
runBack run_back
runBeside run_beside
runFor run_for
runMarks run_marks
runNumbers run_numbers
run_length run-length
rust-div rust_div
rust-rem rust_rem
same_bits same-bits
same_block same-block
same_blocks same-blocks
same_code same-code
same_number same-number
same_of same-of
same_sum same-sum
same_truth same-truth
scanFor scan_for
scanOf scan_of
scanPlaces scan_places
searchBlocks search_blocks
searchOf search_of
settled_at settled-at
settled_same settled-same
shapeFrom shape_from
signedCode signed_code
signedList signed_list
signed_lt signed-lt
sizeBy size_by
some_is some-is
some_left some-left
some_size some-size
soundOf sound_of
stateAfter state_after
step_same step-same
sum_fits sum-fits
sum_is sum-is
sum_same sum-same
sumsOf sums_of
tableCode table_code
table_at table-at
table_is table-is
the_one the-one
toGo to_go
told_back told-back
too_few too-few
too_large too-large
total_at_most total-at-most
turnedBeside turned_beside
turned_round turned-round
turningOf turning_of
turnsOf turns_of
two_to_64 two-to-64
unlessRefused unless_refused
unmarkedBeside unmarked_beside
unused-marks unused_marks
unused-numbers unused_numbers
unusedPut unused_put
usableAt usable_at
valueFor value_for
valueIn value_in
value_stays value-stays
well-marked well_marked
wellFormed well_formed
wellMarked well_marked
wellMarkedAt well_marked_at
whole_run whole-run
whole_same whole-same
wide_fits wide-fits
withCheck with_check
withZeros with_zeros
workOf work_of
works_out works-out
writingOf writing_of
written_at written-at
written_count written-count
zeroAt zero_at
zero_ended zero-ended
zero_is zero-is
zero_number zero-number
zero_or_not zero-or-not
zero_rank zero-rank
zero_same zero-same
zero_test zero-test
zeros-past zeros_past
zerosPut zeros_put
zeros_equal zeros-equal
zeros_of zeros-of
zeros_within zeros-within
"""

# A name as it had landed, and as it is to be.
LANDED = """
all-length all_length
all-small all_small
all-so-far all_so_far
all-usable all_usable
allMore all_more
allWith all_with
answerAs answer_as
answerBack answer_back
answerCode answer_code
answerList answer_list
answerMeant answer_meant
answerOf answer_of
answerOn answer_on
atFirstFault at_first_fault
atOnce at_once
beforeCheck before_check
begunAs begun_as
bitsAt bits_at
bitsIn bits_in
bitsOf bits_of
bitsOfRank bits_of_rank
blockAt block_at
blockLength block_length
blockNumber block_number
blockOf block_of
blockSum block_sum
blocksFor blocks_for
blocksOf blocks_of
bothOf both_of
bottom-first bottom_first
byTest by_test
byteAt byte_at
byteOf byte_of
bytesOf bytes_of
checkAt check_at
checkPut check_put
checkSum check_sum
checkedOf checked_of
clampOf clamp_of
clampedOf clamped_of
code-of code_of
codeAt code_at
codeFor code_for
codeOf code_of
codesAfter codes_after
columnWeight column_weight
countBefore count_before
countFrom count_from
countOf count_of
countPut count_put
dividedBy divided_by
drivenOf driven_of
editionOf edition_of
elementAt element_at
elementOf element_of
endAt end_at
endFault end_fault
endOf end_of
endedAs ended_as
endedAt ended_at
enteredOf entered_of
entryFor entry_for
extentAfter extent_after
extentBeside extent_beside
extentIn extent_in
extentOf extent_of
faultAs fault_as
faultAt fault_at
faultHere fault_here
faultOf fault_of
fieldBlock field_block
fieldMarks field_marks
fieldNumbers field_numbers
firstAfter first_after
firstFault first_fault
firstFrom first_from
firstOverflowed first_overflowed
firstWith first_with
foundAt found_at
foundIn found_in
fromBottom from_bottom
furtherAt further_at
furtherOn further_on
goneOn gone_on
handAfter hand_after
handOf hand_of
handOn hand_on
hasHead has_head
hasLayout has_layout
hasLayoutAs has_layout_as
headAt head_at
headOf head_of
headPut head_put
heldAfter held_after
heldAt held_at
heldBefore held_before
inLogarithm in_logarithm
inPower in_power
inRange in_range
is-mod-equivalent is_mod_equivalent
isOverflowed is_overflowed
isWhole is_whole
isWholeAt is_whole_at
isZero is_zero
itemAt item_at
itemOf item_of
itemWith item_with
keptFrom kept_from
keptOf kept_of
kind-at kind_at
kindAt kind_at
kindOf kind_of
knownWidth known_width
laidOver laid_over
largestBases largest_bases
leftBy left_by
leftIn left_in
lengthFor length_for
limitFor limit_for
limitOf limit_of
limitVerdict limit_verdict
literalFault literal_fault
log-of log_of
log-within log_within
logOf log_by
logarithmBegun logarithm_begun
logarithmOf logarithm_of
logarithmStep logarithm_step
markAt mark_at
markBytes mark_bytes
markFault mark_fault
markFaultAt mark_fault_at
markFaults mark_faults
markOf mark_of
markWords mark_words
markedAt marked_at
marks-long marks_long
marksAfter marks_after
marksAfterAs marks_after_as
marksAt marks_at
marksBeside marks_beside
marksFine marks_fine
marksIn marks_in
marksPut marks_put
meaningFrom meaning_from
middleBy middle_by
minusInfinity minus_infinity
mostItems most_items
mostOnHand most_on_hand
negativeZero negative_zero
noMarks no_marks
number-at number_at
numberAt number_at
numberFrom number_from
numberIn number_in
numberOf number_of
numberPut number_put
numbers-long numbers_long
numbersAfter numbers_after
numbersAfterAs numbers_after_as
numbersBeside numbers_beside
numbersIn numbers_in
numbersPut numbers_put
ofLevelScan of_level_scan
ofPhase of_phase
ofReading of_reading
ofRun of_run
ofScan of_scan
ofSearch of_search
ofShape of_shape
ofTurning of_turning
ofWriting of_writing
onValues on_values
operationFault operation_fault
operationsOf operations_of
outcomeBack outcome_back
overflowedAt overflowed_at
packingWidth packing_width
pairOf pair_of
phaseBack phase_back
phaseIn phase_in
phaseList phase_list
phaseNumbers phase_numbers
phaseWords phase_words
placeOfRank place_of_rank
placeWellMarked place_well_marked
placedAs placed_as
places-of-marks places_of_marks
places-of-numbers places_of_numbers
plainOf plain_of
powerFits power_fits
powerOf power_of
powerStep power_step
powersKinds powers_kinds
powersNumbers powers_numbers
powersOf powers_of
productOf product_of
productsOf products_of
quotientOf quotient_of
raisedOf raised_of
rangeOf range_of
rankOf rank_of
reachOf reach_of
reachedBack reached_back
reachingKinds reaching_kinds
reachingNumbers reaching_numbers
readFault read_fault
readFaultAs read_fault_as
readingAs reading_as
readingOf reading_of
refusalAt refusal_at
refusalHere refusal_here
refusalOf refusal_of
refusalOn refusal_on
refusedAt refused_at
remainderOf remainder_of
resultBytes result_bytes
rightIn right_in
roomOf room_of
roundedOf rounded_of
rows-length rows_length
rows-small rows_small
rows-so-far rows_so_far
rowsMore rows_more
rowsWith rows_with
runAfter run_after
runBack run_back
runBeside run_beside
runFor run_for
runMarks run_marks
runNumbers run_numbers
runOf run_of
rust-div rust_div
rust-rem rust_rem
scanFor scan_for
scanOf scan_of
scanPlaces scan_places
searchBlocks search_blocks
searchOf search_of
shapeAt shape_at
shapeFrom shape_from
shapeOf shape_of
signedCode signed_code
signedList signed_list
sizeBy size_by
sizeOf size_of
soundOf sound_of
stateAfter state_after
stateOf state_of
sumOf sum_of
sumsOf sums_of
tableCode table_code
toGo to_go
turnedBeside turned_beside
turningOf turning_of
turnsOf turns_of
unlessRefused unless_refused
unmarkedBeside unmarked_beside
unused-marks unused_marks
unused-numbers unused_numbers
unusedPut unused_put
usableAt usable_at
valueAt value_at
valueFor value_for
valueIn value_in
valueOf value_of
valuesOf values_of
well-marked well_marked
wellFormed well_formed
wellMarked well_marked
wellMarkedAt well_marked_at
withCheck with_check
withCode with_code
withZeros with_zeros
workOf work_of
writingOf writing_of
zeroAt zero_at
zeros-past zeros_past
zerosPut zeros_put
"""

WORD = re.compile(r"[A-Za-z_][A-Za-z0-9_'^-]*")


def table(text):
    return dict(row.split(" ") for row in text.strip().split("\n"))


def respelled(text, names):
    return WORD.sub(lambda m: names.get(m[0], m[0]), text)


def in_code(text, names, mark):
    """Names outside comments, and those in a comment that are in camel case or in backquotes."""
    camel = {k: v for k, v in names.items() if re.search("[a-z][A-Z]", k)}
    lines = []
    for line in text.split("\n"):
        code, sign, comment = line.partition(mark)
        comment = respelled(re.sub("`[^`]*`", lambda m: respelled(m[0], names), comment), camel)
        lines.append(respelled(code, names) + sign + comment)
    return "\n".join(lines)


def paths(text):
    for room, modules in MODULES.items():
        for old, new in modules.items():
            text = re.sub(rf"(Rattle\.{re.escape(room)}\.){re.escape(old)}(?![\w'-])", rf"\g<1>{new}", text)
    return text


def clause_labels(text):
    """port.py names a clause as the definition that it cites: a label of its own."""
    return re.sub(r"(?m)^(\s*ensures \w+?)_after (?=\{)", r"\1_new ", text)


def edit_paths(text):
    for room, modules in MODULES.items():
        if room.startswith("whole."):
            for old, new in modules.items():
                text = text.replace(f"file: {room.split('.')[1]}/{old}.antt", f"file: {room.split('.')[1]}/{new}.antt")
    return text


def turn(path):
    with open(path, encoding="utf-8") as f:
        text = f.read()
    names = table(NAMES)
    if path.endswith(".antt"):
        new = paths(in_code(text, names, "--"))
        new = re.sub(r"(\.ensures\.\w+?)_after\b", r"\1_new", new)
        where = ".".join(path.split(os.sep)[-3:-1])
        if path.endswith("Lib.antt") and where in MODULES:
            new = re.sub(r"(?m)^((?:pub )?mod )(\S+)", lambda m: m[1] + MODULES[where].get(m[2], m[2]), new)
    elif path.endswith(".rt"):
        camel = {k: v for k, v in names.items() if re.search("[a-z][A-Z]", k) or "-" not in k + v}
        specs = {k: v for k, v in names.items() if "-" in k and "-" not in v}
        new = clause_labels(paths(in_code(text, camel, "//")))
        new = re.sub(r"(?m)^\s*ghost use .*$", lambda m: respelled(m[0], specs), new)
        new = re.sub(r"\{[^{}\n]*≡[^{}\n]*\}", lambda m: respelled(m[0], specs), new)
    else:
        new = edit_paths(respelled(text, table(LANDED)))
    if new != text:
        with open(path, "w", encoding="utf-8") as f:
            f.write(new)
        return True
    return False


def main():
    count = 0
    for folder, dirs, files in os.walk("crates"):
        dirs[:] = sorted(d for d in dirs if d != "out")
        for file in sorted(files):
            if file.endswith((".antt", ".rt", ".edit")):
                count += turn(os.path.join(folder, file))
    for room, modules in MODULES.items():
        folder = os.path.join("crates", *room.split("."))
        for old, new in modules.items():
            if os.path.exists(os.path.join(folder, old + ".antt")):
                os.rename(os.path.join(folder, old + ".antt"), os.path.join(folder, new + ".antt"))
    print(f"tools/spelling.py: {count} files changed", file=sys.stderr)


if __name__ == "__main__":
    main()
