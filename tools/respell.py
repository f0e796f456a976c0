"""Brings this repository's own definitions and lemmas to the spelling of today's Rattle.

Run once, at the top, after the kit's port.py:  python3 tools/respell.py

Types and facts are in upper camel case, all else in snake case; a dash joins two
names. Names of Rust functions, exported names, strings and data stay as they are.
What a script cannot see, names that Rattle itself makes from the code, is left to
the check. The folder of the crate `log` becomes `logstore`, since the kit has a
library of that name.
"""

import re
import subprocess
from pathlib import Path

ROOT = Path(__file__).resolve().parent.parent

# Old name, new name.
TABLE = """
Accepted-is-true AcceptedIsTrue
Accepts-exactly AcceptsExactly
All-digests AllDigests
AskGet asks_get
AskPut asks_put
AskRoom asks_room
AskSpan asks_span
At-each-bit AtEachBit
Chi-by-bits ChiByBits
Constants-by-rule ConstantsByRule
Digest-bytes DigestBytes
Digest-length DigestLength
Empty-log EmptyLog
Ends-in-a-record EndsInARecord
Example-abc ExampleAbc
Example-empty ExampleEmpty
First-words FirstWords
Last-record-counts LastRecordCounts
Later-words LaterWords
Least-padding LeastPadding
Least-zeros LeastZeros
Length-alone LengthAlone
Length-cases LengthCases
Length-is-rfc LengthIsRfc
Longest-record LongestRecord
Of-32-bytes Of32Bytes
Offsets-by-rule OffsetsByRule
One-record-more OneRecordMore
Others-stay OthersStay
Padding-bits PaddingBits
Path-alone PathAlone
Path-is-rfc PathIsRfc
Path-length PathLength
Pi-by-bits PiByBits
Places-are-told-apart PlacesAreToldApart
Places-fit PlacesFit
Places-lie-apart PlacesLieApart
Put-is-got PutIsGot
Rfc-length RfcLength
Rfc-path RfcPath
Rfc-root RfcRoot
Rho-by-bits RhoByBits
Room-cases RoomCases
Root-alone RootAlone
Root-is-rfc RootIsRfc
Rooted-constants RootedConstants
Shown-records-stand ShownRecordsStand
Slip-lengths SlipLengths
Span-cases SpanCases
Span-is-the-largest SpanIsTheLargest
Stops-at-no-record StopsAtNoRecord
Theta-by-bits ThetaByBits
True-is-accepted TrueIsAccepted
Two-paths TwoPaths
Whole-blocks WholeBlocks
Written-is-read WrittenIsRead
admitted-by admitted_by
admitted-parts admitted_parts
agrees-grown agrees_grown
agrees-same agrees_same
ahead-is ahead_is
all-bytes all_bytes
all-good all_good
allRooted all_rooted
and-bit and_bit
and-two and_two
any-level any_level
anyHeldAnswer any_held_answer
as-block as_block
as-node as_node
at-end at_end
at-fault at_fault
at-number at_number
at-root at_root
atOffset at_offset
bad-block bad_block
bad-end bad_end
bad-head bad_head
bad-number bad_number
bad-path bad_path
bad-root bad_root
below-pow below_pow
big2-back big2_back
big2-same big2_same
bit-mod bit_mod
bits-padding bits_padding
bits-zeros bits_zeros
blank-agrees blank_agrees
blank-length blank_length
blank-says blank_says
block-got block_got
block-is block_is
block-left block_left
block-next block_next
block-part block_part
block-put block_put
block-right block_right
block-taken block_taken
blockLength block_length
blockNumberOf block_number_of
blocks-pad blocks_pad
blocks-written blocks_written
by-test by_test
byte-back byte_back
bytes-more bytes_more
bytes-push bytes_push
causeNumber cause_number
check-held check_held
check-read check_read
check-seal check_seal
checkAnswer check_answer
constants-are constants_are
content-byte content_byte
content-more content_more
content-new content_new
content-number content_number
content-used content_used
contentAt content_at
count-is count_is
count-test count_test
countAt count_at
countField count_field
digest-bytes digest_bytes
digest-length digest_length_lem
digestLength digest_length
effect-bit effect_bit
empty-log empty_log
empty-under empty_under
emptyRoot empty_root
ends-from ends_from
ends-in-a-record ends_in_a_record
fault-free fault_free
field-ends field_ends
field-read field_read
field-same field_same
field-stays field_stays
field-there field_there
fieldsAnswer fields_answer
final-all final_all
first-four first_four
firstBad first_bad
flatMeaning flat_meaning
flatOf flat_of
flatRoom flat_room
flatSpan flat_span
flatTable flat_table
flipped-bit flipped_bit
form-bad form_bad
form-good form_good
formAnswer form_answer
from-carried from_carried
from-left from_left
from-none from_none
from-push from_push
from-right from_right
front-written front_written
get-admitted get_admitted
get-part get_part
given-map given_map
grow-end grow_end
grown-length grown_length
has-field has_field_lem
hasField has_field
head-good head_good
head-passes head_passes
head-stops head_stops
headAfter head_after
headAnswer head_answer
header-length header_length_lem
headerLength header_length
heap-apart heap_apart
heldAnswer held_answer
holds-zeros holds_zeros
in-text in_text
index-items index_items
inside-more inside_more
intermediate-more intermediate_more
isBlockZero is_block_zero
isRoot is_root
isUnder is_under
joined-append joined_append
keccak-f keccak_f
kind-test kind_test
kindField kind_field
laid-after laid_after
laid-before laid_before
laid-block laid_block
lane-state lane_state
lane-with lane_with
lanes-absorbed lanes_absorbed
lanes-permuted lanes_permuted
largest-here largest_here
largest-is largest_is
largest-lower largest_lower
last-grown last_grown
last-of-fits last_of_fits
last-record-counts last_record_counts
last-stands last_stands
later-both later_both
later-words later_words
laterAnswer later_answer
laterNumber later_number
laterOf later_of
lay-none lay_none
lay-some lay_some
layerName layer_name
layerOf layer_of
layout-mono layout_mono
layout-none layout_none
layoutLength layout_length
least-zeros least_zeros
length-alone length_alone
length-bound length_bound
length-cases length_cases
length-is length_is
length-left length_left
length-low length_low
length-only length_only
length-rfc length_rfc
length-right length_right
logMeaning log_meaning
logOf log_of
logTable log_table
long-head long_head
long-is long_is
long-tag long_tag
long-there long_there
madeAnswer made_answer
mid-after mid_after
mid-before mid_before
mid-in mid_in
mostBlocks most_blocks
mostPart most_part
new-there new_there
next-block next_block
next-is next_is
next-same next_same
no-fault no_fault
node-before node_before
node-got node_got
node-high node_high
node-inside node_inside
node-low node_low
node-next node_next
node-part node_part
node-put node_put
node-read node_read
node-taken node_taken
nodeAt node_at
nodes-few nodes_few
nodes-inside nodes_inside
nodes-mono nodes_mono
nodes-more nodes_more
nodes-none nodes_none
nodes-rise nodes_rise
nodes-written nodes_written
nodesBelow nodes_below
none-extra none_extra
noted-all noted_all
noted-none noted_none
number-back number_back
number-low number_low
numberTest number_test
of-32-bytes of_32_bytes
ofSeal of_seal
onLeft on_left
onRight on_right
one-above one_above
one-record-more one_record_more
overwritten-apart overwritten_apart
overwritten-here overwritten_here
overwritten-is overwritten_is
overwritten-twice overwritten_twice
own-level own_level
pad-first pad_first
pad-is pad_is
pad-second pad_second
parity-bit parity_bit
parity-lt parity_lt
part-big2 part_big2
part-byte part_byte
part-overwritten part_overwritten
past-field past_field
path-alone path_alone
path-is path_is
path-leads path_leads
path-left path_left
path-length path_length_lem
path-long path_long
path-low path_low
path-only path_only
path-rfc path_rfc
path-right path_right
path-single path_single
path-split-left path_split_left
path-split-right path_split_right
path-within path_within
pathAnswer path_answer
pathAt path_at
pathBytes path_bytes
pathLength path_length
pathLengthAt path_length_at
pathOf path_of
pathRoot path_root
pathStrings path_strings
pathWritten path_written
place-left place_left
place-low place_low
place-right place_right
places-apart places_apart
places-fit places_fit
primesBelow primes_below
push-within push_within
put-admitted put_admitted
put-bytes put_bytes
put-kept put_kept
put-part put_part
put-told put_told
readAnswer read_answer
record-cut record_cut
record-end record_end
record-fits record_fits
record-length record_length_lem
record-more record_more
record-new record_new
recordAt record_at
recordBytes record_bytes
recordLength record_length
records-length records_length
refusalOf refusal_of
refusedBy refused_by
replyOf reply_of
room-asked room_asked
root-alone root_alone
root-empty root_empty
root-high root_high
root-level root_level
root-low root_low
root-more root_more
root-one root_one
root-only root_only
root-rfc root_rfc
root-single root_single
root-size root_size
root-split root_split
rootAnswer root_answer
rootAt root_at
rootFrom root_from
rootOf root_of
rootStrings root_strings
rootStringsAt root_strings_at
rooted-constants rooted_constants
rotated-bit rotated_bit
roundsOf rounds_of
same-halves same_halves
same-join same_join
same-node same_node
same-or-clash same_or_clash
same-path same_path
same-split same_split
samePlace same_place
same_place same_place_lem
sealAnswer seal_answer
sealBytes seal_bytes
sealFault seal_fault
sealForm seal_form
sealOf seal_of
sealRoot seal_root
sealSays seal_says
sealTests seal_tests
sealUnder seal_under
sealWriteAnswer seal_write_answer
sealWritten seal_written
sealed-is sealed_is
set-slot set_slot
sha3-256 sha3_256
short-path short_path
shown-records-stand shown_records_stand
siteOf site_of
size-high size_high
slipBytes slip_bytes
slipFault slip_fault
slipForm slip_form
slipHead slip_head
slipLength slip_length
slipOf slip_of
slipSays slip_says
slipShows slip_shows
slipStrings slip_strings
slipTests slip_tests
slipUnder slip_under
slipWriteAnswer slip_write_answer
slipWritten slip_written
slot-fits slot_fits
slot-low slot_low
span-asked span_asked
span-at span_at
span-cases span_cases
span-down span_down
span-here span_here
span-is span_is
span-start span_start
spanUpTo span_up_to
split-within split_within
splitOf split_of
splitTable split_table
step-more step_more
still-admitted still_admitted
stop-none stop_none
stopOf stop_of
stops-at-no-record stops_at_no_record
strings-high strings_high
strings-low strings_low
stringsFrom strings_from
stringsFrom-push strings_from_push
table-ended table_ended
table-grown table_grown
table-overwritten table_overwritten
table-sized table_sized
table-written table_written
taken-apart taken_apart
topLevel top_level
true-block true_block
true-is-accepted true_is_accepted
turn-same turn_same
turned-any turned_any
turns-is turns_is
turns-left turns_left
turns-low turns_low
turns-one turns_one
turns-right turns_right
turns-step turns_step
turnsAt turns_at
turnsUp turns_up
turns_up turns_up_lem
two-paths two_paths
under-kept under_kept
under-refused under_refused
unlessFault unless_fault
unlessRead unless_read
up-push up_push
usedAfter used_after
verdictOf verdict_of
well-read well_read
whole-blocks whole_blocks
whole-ended whole_ended
whole-grown whole_grown
whole-more whole_more
whole-step whole_step
whole-until whole_until
words-stay words_stay
written-is-read written_is_read
xor-bit xor_bit
xor-two xor_two
zeros-more zeros_more
zeros-past zeros_past
"""

NAMES = dict(line.split() for line in TABLE.strip().splitlines())
TOKEN = re.compile(r"(?<![\w'\u2032-])[A-Za-z][\w'\u2032-]*")
MOVED = "log", "logstore"


def respell(found):
    """A name in today's spelling; after a dot a lemma's name is one that Rattle made."""
    old = found.group()
    new = NAMES.get(old, old)
    made = found.string[found.start() - 1 : found.start()] == "."
    return new.removesuffix("_lem") if made and new.endswith("_lem") else new


def move_crate(old, new):
    """Gives a crate another name: its folder, its line, and what cites it."""
    folder = ROOT / "crates" / old
    if not folder.is_dir():
        return
    subprocess.run(["git", "mv", folder, ROOT / "crates" / new], check=True)
    listed = ROOT / "crates.txt"
    text = listed.read_text(encoding="utf-8")
    listed.write_text(
        "\n".join(line if line.startswith("#") else re.sub(rf"\b{old}\b", new, line) for line in text.split("\n")),
        encoding="utf-8",
    )
    for file in sources():
        text = file.read_text(encoding="utf-8")
        turned = re.sub(rf"\bRattle\.{old}\.", f"Rattle.{new}.", text)
        if not file.is_relative_to(ROOT / "crates" / new):
            turned = re.sub(rf"^use {old}::", f"use {new}::", turned, flags=re.MULTILINE)
        if turned != text:
            file.write_text(turned, encoding="utf-8")


def sources():
    """Every file of code, definitions and proofs."""
    for file in sorted((ROOT / "crates").rglob("*")):
        if file.suffix in (".rt", ".antt") and "out" not in file.parts:
            yield file


def main():
    for file in sources():
        text = file.read_text(encoding="utf-8")
        turned = TOKEN.sub(respell, text)
        if turned != text:
            file.write_text(turned, encoding="utf-8")
    move_crate(*MOVED)


if __name__ == "__main__":
    main()
