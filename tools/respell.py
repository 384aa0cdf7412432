#!/usr/bin/env python3
"""Respells the definitions and lemmas of this repository: functions in snake case, facts and types in camel case.

usage: tools/respell.py        at the top of the repository, after port.py; files are rewritten in place

A dash stays in a lemma's name where it joins two names, as in has-or. Names of functions of src/, strings, inputs and
outputs are left alone. A predicate that would take the name of a variant of the enum of rules says what a file is or has.
"""

import re
from pathlib import Path

TABLE = """
Allows-by AllowsBy
Cheapest-of CheapestOf
Cheapest-yet CheapestYet
Configuration-in ConfigurationIn
Conflicts-before ConflictsBefore
Counts-before CountsBefore
Domains-before DomainsBefore
Each-holds EachHolds
Each-once EachOnce
First-byte FirstByte
First-fault FirstFault
First-in-record FirstInRecord
Follows-another-kind FollowsAnotherKind
Gives-value GivesValue
Has-letter HasLetter
Has-value HasValue
In-record InRecord
Inequality-at InequalityAt
Inequality-forbids InequalityForbids
Known-option KnownOption
Known-value KnownValue
L-letter l_letter
Mask-beyond-values HasMaskBeyondValues
Misplaced-option IsMisplacedOption
No-record HasNoRecord
No-repeats NoRepeats
No-value NoValue
Nonzero-at HasNonzeroAt
O-letter o_letter
O-record o_record
On-record OnRecord
P-letter p_letter
Partial-record HasPartialRecord
Price-at PriceAt
Price-before PriceBefore
Priced-by PricedBy
Prices-from PricesFrom
R-letter r_letter
R-record r_record
Read-off ReadOff
Row-at RowAt
Row-before RowBefore
Row-forbids RowForbids
Row-of RowOf
Rule-of RuleOf
Rules-before RulesBefore
Same-answers SameAnswers
Set-of SetOf
Some-before SomeBefore
Sound-below SoundBelow
Sound-file SoundFile
Sound-record SoundRecord
Sum-over SumOver
Taken-in TakenIn
Tally-before TallyBefore
Too-long IsTooLong
Too-many-inequalities HasTooManyInequalities
Unknown-at HasUnknownAt
Unknown-first HasUnknownFirst
Unknown-letter HasUnknownLetter
Unknown-second HasUnknownSecond
Unknown-value HasUnknownValue
Wrong-count HasWrongCount
added-assoc added_assoc
added-left added_left
added-right added_right
added-stored added_stored
all-options all_options
all-passed all_passed
all-weights all_weights
append-once append_once
asked-price asked_price
assoc-higher assoc_higher
assoc-level assoc_level
assoc-lower assoc_lower
at-rule at_rule
at-start at_start
barred-more barred_more
begun-apart begun_apart
begun-from begun_from
begun-once begun_once
beyond-limits beyond_limits
bit-beyond bit_beyond
block-count block_count
block-size-fits block_size_fits
block-size-le block_size-le
block-size-none block_size_none
block-size-same block_size_same
block-sum block_sum
block-weight block_weight
breaks-append breaks_append
breaks-at breaks_at
breaks-next breaks_next
breaks-one breaks_one
breaks-set breaks_set
breaks-some breaks_some
byte-printable byte_printable
cheapest-text cheapest_text
choices-once choices_once
chosen-in chosen_in
configuration-weight configuration_weight
conflicts-added conflicts_added
conflicts-kept conflicts_kept
cost-means cost_means
count-before count_before
count-before-in count_before_in
count-before-le count_before-le
count-before-none count_before_none
count-before-out count_before_out
count-before-step count_before_step
count-below count_below
count-grows count_grows
count-in count_in
count-is-size count_is_size
count-lawful count_lawful
count-le count_le
count-meaning count_meaning
count-mono count_mono
count-more count_more
count-or count_or
count-out count_out
count-right count_right
count-single count_single
count-some count_some
count-suc count_suc
count-unique count_unique
count-up count_up
count-without count_without
counts-text counts_text
dear-meaning dear_meaning
dear-means dear_means
dearer-assoc dearer_assoc
dearer-comm dearer_comm
dearer-none dearer_none
dearer-stored dearer_stored
decides-beside decides_beside
decides-each decides_each
decides-false decides_false
decides-known decides_known
decides-less decides_less
decides-no-more decides_no_more
decides-none decides_none
decides-one-more decides_one_more
decides-price decides_price
decides-row decides_row
decides-unknown-option decides_unknown_option
decides-unknown-value decides_unknown_value
domains-kept domains_kept
domains-pushed domains_pushed
each-example-holds each_example_holds
each-offer each_offer
each-once-like each_once_like
fault-at fault_at
few-options few_options
few-values few_values
file-meaning file_meaning
file-rules file_rules
file-sound file_sound
finds-for finds_for
first-by-records first_by_records
first-in-record first_in_record
first-is-1 first_is_1
first-is-2 first_is_2
first-is-3 first_is_3
first-is-option first_is_option
first-known first_known
first-on-file first_on_file
first-pair first_pair
first-sound first_sound
forbidden-more forbidden_more
found-cheaper found_cheaper
found-one found_one
found-text found_text
four-values four_values
given-size given_size
has-below has_below
has-clear has_clear
has-complement has_complement
has-mask has_mask
has-mask-below has-mask_below
has-none has_none
has-single has_single
hex-digit hex_digit
hex-printable hex_printable
holds-throughout holds_throughout
if-at if_at
in-file in_file
in-first in_first
in-set in_set
inequalities-kept inequalities_kept
inequality-room inequality_room
is-a is_a
is-i is_i
is-not is_not
joined-from joined_from
joined-printable joined_printable
keeps-all keeps_all
larger-number larger_number
last-on-file last_on_file
last-once last_once
last-passes last_passes
last-there last_there
layer-of layer_of
least-exists least_exists
least-mask least_mask
least-same least_same
least-suc least_suc
least-trailing least_trailing
least-unique least_unique
left-distributes left_distributes
left-once left_once
left-spread left_spread
left-zero left_zero
length-list length_list
letter-known letter_known
list-below list_below
list-early list_early
list-in list_in
list-late list_late
list-least list_least
list-none list_none
list-once list_once
list-one list_one
list-out list_out
list-places list_places
longest-file longest_file
mag-neg mag_neg
map-once map_once
mask-beyond mask_beyond
mask-top mask_top
mask-within mask_within
meets-single meets_single
mod-factor mod_factor
most-inequalities most_inequalities
most-options most_options
most-records most_records
name-printable name_printable
names-known names_known
near-meaning near_meaning
never-file never_file
next-option next_option
no-1 no_1
no-2 no_2
no-3 no_3
no-L no_L
no-O no_O
no-P no_P
no-R no_R
no-block-empty no_block_empty
no-conflict no_conflict
no-conflict-past no_conflict_past
no-first no_first
no-marks no_marks
no-price no_price
no-values no_values
none-count none_count
none-q none_q
none-size none_size
none-sooner none_sooner
none-text none_text
none-zero none_zero
not-misplaced not_misplaced
not-repeated not_repeated
nothing-barred nothing_barred
noun-of noun_of
offer-at offer_at
offer-if offer_if
offer-past offer_past
offer-product offer_product
offer-saturates offer_saturates
offer-sum offer_sum
on-file on_file
on-record on_record
one-first-fault one_first_fault
one-gone one_gone
one-if one_if
one-mono one_mono
one-more-barred one_more_barred
one-passed one_passed
one-price one_price
ones-count ones_count
option-counted option_counted
option-known option_known
option-next option_next
option-room option_room
option-small option_small
option-text option_text
option-words option_words
options-first options_first
or-first or_first
other-known other_known
pair-count pair_count
pair-text pair_text
passed-all passed_all
passed-le passed_le
passed-next passed_next
passed-nth passed_nth
passes-last passes_last
placed-more placed_more
price-alone price_alone
price-of price_of
priced-more priced_more
priced-none priced_none
prices-kept prices_kept
product-assoc product_assoc
product-below product_below
product-fits product_fits
product-left product_left
product-more product_more
product-none product_none
product-of product_of
product-offers product_offers
product-right product_right
product-words product_words
products-group products_group
record-length record_length
record-more record_more
record-rule record_rule
refusal-number refusal_number
refusal-text refusal_text
refusal-words refusal_words
rest-zero rest_zero
right-distributes right_distributes
right-spread right_spread
row-marked row_marked
row-unmarked-past row_unmarked_past
rows-kept rows_kept
rule-of rule_of
rule-of-number rule_of_number
rules-added rules_added
rules-kept rules_kept
rules-none rules_none
same-mask same_mask
same-members same_members
same-record same_record
same-rule same_rule
second-known second_known
second-pair second_pair
second-sound second_sound
set-count set_count
set-loses set_loses
shown-byte shown_byte
shown-name shown_name
side-count side_count
side-least side_least
side-none side_none
side-of side_of
side-once side_once
side-weight side_weight
signed-pair signed_pair
size-given size_given
size-list size_list
size-union size_union
size-with size_with
size-within size_within
small-a small_a
small-i small_i
small-j small_j
some-before-kept some_before_kept
some-before-more some_before_more
some-option some_option
some-record some_record
some-up-to some_up_to
sooner-on-file sooner_on_file
sort-of sort_of
sound-O sound_O
sound-before sound_before
sound-below-mask sound_below_mask
sound-below-more sound_below_more
sound-below-none sound_below_none
sound-by-records sound_by_records
sound-by-rules sound_by_rules
sound-record sound_record
still-in still_in
sum-assoc sum_assoc
sum-higher sum_higher
sum-lower sum_lower
sum-none sum_none
sum-right sum_right
sum-words sum_words
taken-first taken_first
taken-in-price taken_in_price
taken-or-left taken_or_left
tariff-meaning tariff_meaning
the-file the_file
third-known third_known
third-sound third_sound
three-offers three_offers
turn-of turn_of
turn-on-record turn_on_record
unknown-at unknown_at
unmarked-past unmarked_past
unused-in-O unused_in_O
unused-in-R unused_in_R
value-beyond value_beyond
value-counted value_counted
value-known value_known
values-added values_added
values-kept values_kept
values-road values_road
weighed-more weighed_more
whole-records whole_records
with-letter with_letter
within-limits within_limits
without-barred without_barred
word-product word_product
"""

NAMES = dict(line.split() for line in TABLE.split("\n") if line)
NAME = re.compile(r"[^\s(){}\[\];,.@\"“”`|⌜⌝:«»]+")
STRING = re.compile(r'"(?:\\.|[^"\\])*"')


def respelled(text):
    return NAME.sub(lambda m: NAMES.get(m.group(), m.group()), text)


def outside_strings(text):
    done, at = [], 0
    for string in STRING.finditer(text):
        done += [respelled(text[at : string.start()]), string.group()]
        at = string.end()
    return "".join(done) + respelled(text[at:])


def files():
    for crate in sorted(Path("crates").iterdir()):
        for folder, ending in (("specs", "*.antt"), ("proofs", "*.antt"), ("src", "*.rt")):
            yield from sorted((crate / folder).rglob(ending))
    yield from [Path("README.md"), *sorted(Path("docs").glob("*.md"))]


def main():
    changed = 0
    for path in files():
        old = path.read_text(encoding="utf-8")
        new = outside_strings(old) if path.suffix == ".rt" else respelled(old)
        if new != old:
            path.write_text(new, encoding="utf-8")
            changed += 1
    print(f"respell: {changed} files changed")


if __name__ == "__main__":
    main()
