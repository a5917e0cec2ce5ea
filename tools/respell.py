#!/usr/bin/env python3
"""Respells the repository's own definitions, fields and lemmas: words in snake case, a dash only between two names.

usage: python3 tools/respell.py     at the top of the repository, once, after the toolchain's own script for older repositories

It goes by whole names, in specs/ and proofs/, in the clauses and ghost lines of src/, and (names in camel case alone) in the pages.
Functions of src/, strings, inputs and outputs keep their names. Where a lemma would fall together with a definition that it is used
beside, the lemma gets `_lem`.
"""

import os
import re

# old name, new name
NAMES = """
accepted-passes accepted_passes
accepts-well accepts_well
addCost add_cost
addCounts add_counts
added-fits added_fits
after-sheets after_sheets
all-12 all_12
all-24 all_24
all-at-most all_at_most
all-counted all_counted
all-parts all_parts
all-sequences all_sequences
and-on and_on
answerText answer_text
any-all any_all
any-counted any_counted
any-decides any_decides
any-from any_from
any-more any_more
anyBelow any_below
back-file back_file
back-order back_order
back-sheet back_sheet
before-end before_end
before-sheets before_sheets
begun-distinct begun_distinct
begun-in begun_in
below-decides below_decides
below-from-bits below_from_bits
below-pow below_pow
best-folded best_folded
best-values best_values
bestOps best_ops
between-decides between_decides
bit-add-other bit-add_other
bit-add-same bit-add_same
bit-counted bit_counted
bit-sub-other bit-sub_other
bit-sub-same bit-sub_same
busy-decides busy_decides
cellFrom cell_from
common-counted common_counted
contentOf content_of
costedOf costed_of
count-folded count_folded
countModulus count_modulus
countOps count_ops
counted-once counted_once
counted-small counted_small
counting-distinct counting_distinct
counting-in counting_in
counts-le counts_le
dear-preorder dear_preorder
dear-trans dear_trans
decides-meaning decides_meaning
decides-value decides_value
distinct-decides distinct_decides
distinct-from-apart distinct_from_apart
distinct-out distinct_out
done-counted done_counted
due-at due_at
due-decides due_decides
due-figures due_figures
due-keeps due_keeps
due-of due_of
due-small due_small
dueAsks due_asks
dueBefore due_before
dueCount due_count
dueFigure due_figure
dueRule due_rule
dueStep due_step
dueWord due_word
dues-labels dues_labels
dues-length dues_length
each-counted each_counted
eight-bytes eight_bytes
empty-decides empty_decides
extendBest extend_best
extendPair extend_pair
false-from-decides false_from_decides
few-done few_done
few-next few_next
few-orders few_orders
few-rows few_rows
few-sheets few_sheets
few-steps few_steps
figure-from figure_from
figures-limited figures_limited
figuresFrom figures_from
fileChecks file_checks
fileOf file_of
fileRefusal file_refusal
first-edition first_edition
first-fault first_fault
first-here first_here
first-kept first_kept
first-later first_later
first-served first_served
first-stays first_stays
first-unserved first_unserved
from-the-table from_the_table
from-within from_within
has-added has_added
has-from-in has_from_in
has-high has_high
has-off has_off
has-past has_past
has-withIn has-with_in
hasStack has_stack
headerBytes header_bytes
holds-turn holds_turn
holds-verdict holds_verdict
in-append in_append
in-at in_at
in-back in_back
in-begun in_begun
in-counting in_counting
in-file-passes in_file_passes
in-file-stops in_file_stops
in-from-has in_from_has
in-joined in_joined
in-lists in_lists
in-out in_out
in-time in_time
inFile in_file
inJob in_job
inside-decides inside_decides
is-first is_first
is-next is_next_lem
is-sequence is_sequence_lem
isNext is_next
isOpen is_open
isSequence is_sequence
job-sound job_sound
jobRefusal job_refusal
jobText job_text
joinBest join_best
joinSome join_some
joined-distinct joined_distinct
keeps-decides keeps_decides
kept-distinct kept_distinct
label-fits label_fits_lem
label-holds label_holds
label-length label_length
labelAt label_at
labelBytes label_bytes
labelFits label_fits
labels-inside labels_inside
labelsOf labels_of
largest-more largest_more
largest-push largest_push
last-any last_any
last-later last_later
last-served last_served
last-unserved last_unserved
late-1 late_1
late-le late_le
late-uncut late_uncut
late-values late_values
lateness-le lateness_le
lateness-small lateness_small
lateness-summed lateness_summed
latenessOf lateness_of
layout-holds layout_holds
least-12 least_12
least-peaks least_peaks
limit-1 limit_1
limit-keeps limit_keeps
limitAsks limit_asks
limitCount limit_count
lists-distinct lists_distinct
lower-0 lower_0
lower-peaks lower_peaks
measuresOf measures_of
member-from member_from
mostFigure most_figure
mostLabelBytes most_label_bytes
mostOrders most_orders
mostSheets most_sheets
next-listed next_listed
next-new next_new
no-repeat no_repeat
no-sheet no_sheet
no-stranger no_stranger
not-lawful not_lawful
not-passed not_passed
not-the-same not_the_same
of-order of_order
of-sheet of_sheet
off-from-has off_from_has
on-from-has on_from_has
one-counted one_counted
one-join one_join
ones-counted ones_counted
ones-from ones_from
open-figures open_figures
open-in-step open_in_step
open-keeps open_keeps
open-steps open_steps
open-summed open_summed
openAsks open_asks
openCount open_count
openFigure open_figure
openOf open_of
openOrders open_orders
openRule open_rule
open_of open_of_lem
orderChecks order_checks
orderLine order_line
overdue-due overdue_due
overdue-steps overdue_steps
overdue-summed overdue_summed
overdueFigure overdue_figure
overdueRule overdue_rule
pairOps pair_ops
pairPeak pair_peak
pairRows pair_rows
pairs-fail pairs_fail
part-is part_is
parts-once parts_once
parts-sheets parts_sheets
passed-from passed_from
past-header past_header
peak-2 peak_2
peak-folded peak_folded
peak-values peak_values
peakCount peak_count
peakOf peak_of
peakOps peak_ops
peaks-counted peaks_counted
peaks-permitted peaks_permitted
permittedOf permitted_of
printed-decides printed_decides
reach-any reach_any
reach-below reach_below_lem
reach-in-room reach_in_room
reach-passed reach_passed
reach-serves reach_serves
reach-taken reach_taken
reachBelow reach_below
reading-accepts reading_accepts
reading-refuses reading_refuses
recordAt record_at
recordBytes record_bytes
records-inside records_inside
recordsAt records_at
refusedLine refused_line
refuses-other refuses_other
roomBytes room_bytes
rowBytes row_bytes
rows-below rows_below
rows-length rows_length
rows-past rows_past
rows-push rows_push
same-members same_members
same-value same_value
sequence-length sequence_length
sequencesThat sequences_that
served-decides served_decides
set-undone set_undone
set-with set_with
sheetChecks sheet_checks
sheetLine sheet_line
shifted-out shifted_out
small-and small_and
small-or small_or
some-order some_order
some-rows some_rows
some-sheet some_sheet
sound-holds sound_holds
span-le span_le
spread-6 spread_6
spread-le spread_le
spread-small spread_small
spread-summed spread_summed
spread-uncut spread_uncut
spread-values spread_values
statedLength stated_length
stepping-keeps stepping_keeps
sum-swap sum_swap
sum-zero sum_zero
swept-10 swept_10
sweptTo swept_to
sweptValue swept_value
taken-first taken_first
taken-fits taken_fits
total-folded total_folded
totalOps total_ops
turn-each turn_each
turn-passes turn_passes
turn-stops turn_stops
upto-passed upto_passed
upto-taken upto_taken
valued-itself valued_itself
verdict-holds verdict_holds
verdict-passes verdict_passes
verdict-stops verdict_stops
walk-on walk_on
walk-starts walk_starts
walk-stops walk_stops
well-formed well_formed
wide-bound wide_bound
with-below with_below
withIn with_in
withinAll within_all
zero-from-bits zero_from_bits
"""

# names that are only respelled below one folder: a field elsewhere has the same name
ONLY = {"crates/job/proofs": {"label_at": "label_at_lem"}}

NAME = re.compile(r"[^\W\d][\w'-]*")
GHOST = re.compile(r"\s*(ghost |requires|ensures)")


def respelled(text, names):
    return NAME.sub(lambda m: names.get(m.group(0), m.group(0)), text)


def antt(text, names, camel):
    lines = []
    for line in text.split("\n"):
        code, dashes, said = line.partition("--")
        lines.append(respelled(code, names) + dashes + respelled(said, camel))
    return "\n".join(lines)


def rt(text, names):
    return "\n".join(respelled(l, names) if GHOST.match(l) else l for l in text.split("\n"))


def files():
    for top in ("crates", "docs"):
        for folder, dirs, found in os.walk(top):
            dirs[:] = sorted(d for d in dirs if d not in ("out", "must-fail", "data"))
            for f in sorted(found):
                yield os.path.join(folder, f)
    yield "README.md"


def main():
    every = dict(line.split() for line in NAMES.split("\n") if line)
    camel = {a: b for a, b in every.items() if re.search("[a-z][A-Z]", a)}
    changed = 0
    for path in files():
        if not path.endswith((".antt", ".rt", ".md")) or path == os.path.join("docs", "PORT.md"):
            continue
        names = dict(every)
        for folder, more in ONLY.items():
            if path.startswith(folder + "/"):
                names |= more
        with open(path, encoding="utf-8") as f:
            old = f.read()
        if path.endswith(".antt"):
            new = antt(old, names, camel)
        elif path.endswith(".rt"):
            new = rt(old, names)
        else:
            new = respelled(old, camel)
        if new != old:
            changed += 1
            with open(path, "w", encoding="utf-8") as f:
                f.write(new)
    print(f"{changed} files respelled")


if __name__ == "__main__":
    main()
