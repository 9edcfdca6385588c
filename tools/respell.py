#!/usr/bin/env python3
"""Brings this repository's own names to the library's spelling: definitions and lemmas in snake case, types in camel case.

usage: python3 tools/respell.py        at the top of the repository, once

A dash stays where it joins a function's name to another, as in length-turned. Functions of src/, goals and the steps of a
proof keep their names. It goes by text: crates/*/specs, proofs, src (not in comments or strings) and must-fail.
"""

import os
import re

# the old name and the new one
NAMES = """
    All-shared AllShared
    By-command ByCommand
    Enters-lines EntersLines
    Feed-shared FeedShared
    Last-mark LastMark
    Least-from LeastFrom
    None-from NoneFrom
    Own-marks OwnMarks
    Own-part OwnPart
    Reads-back ReadsBack
    Take-alike TakeAlike
    Tick-shared TickShared
    Trials-hold TrialsHold
    admit-all admit_all
    admits-length admits_length
    admits-tick admits_tick
    admits-word admits_word
    after-mark after_mark
    after-row after_row
    all-blanks all_blanks
    all-cells all_cells
    all-gaps all_gaps
    all-keywords all_keywords
    all-letters all_letters
    all-listable all_listable
    all-proper all_proper
    all-rows all_rows
    all-watched all_watched
    all-zero all_zero
    among-push among_push
    among-reported among_reported
    and-false and_false
    and-swap and_swap
    and-true and_true
    any-counted any_counted
    any-fires any_fires
    any-parted any_parted
    are-bounds are_bounds
    arm-both arm_both
    arm-whole arm_whole
    at-column at_column
    at-it at_it
    automaton-book automaton_book
    back-link back_link
    back-root back_root
    bad-letter bad_letter
    band-admits band_admits
    band-hears band_hears
    before-first before_first
    before-kept before_kept
    before-met before_met
    begins-here begins_here
    begins-in begins_in
    begins-well begins_well
    begins-where begins_where
    behind-blanks behind_blanks
    behind-right behind_right
    below-zero below_zero
    between-field between_field
    between-same between_same
    bit-out bit_out
    bits-shifted bits_shifted
    bits-with bits_with
    blank-at blank_at
    blank-decimal blank_decimal
    blank-flaw blank_flaw
    blank-there blank_there
    blanks-before blanks_before
    blanks-end blanks_end
    blanks-stay blanks_stay
    blanks-step blanks_step
    block-parts block_parts
    block-stays block_stays
    blocks-of blocks_of
    blocks-stay blocks_stay
    book-column book_column
    book-flaw book_flaw
    book-of book_of
    by-command by_command
    byte-before byte_before
    carried-fits carried_fits
    carry-out carry_out
    cases-le cases_le
    cell-again cell_again
    cell-before cell_before
    cells-after cells_after
    cells-more cells_more
    cells-read cells_read
    cells-there cells_there
    cells-up-to cells_up_to
    child-fresh child_fresh
    child-other child_other
    clean-row clean_row
    closed-or-not closed_or_not
    closed-row closed_row
    count-ok count_ok
    count-rows count-rows
    count-samples count-samples
    counts-ok counts_ok
    cut-append cut-append
    cut-filled cut-filled
    cut-joined cut-joined
    cut-same cut_same
    cut-take cut-take
    decimal-back decimal_back
    decimal-begins decimal_begins
    decimal-cases decimal_cases
    decimal-digits decimal_digits
    decimal-flaw decimal_flaw
    decimal-in decimal_in
    decimal-missed decimal_missed
    decimal-read decimal_read
    digit-is digit_is
    digit-mod digit-mod
    digit-past digit_past
    digit-pow digit_pow
    digit-shr digit_shr
    digit-test digit_test
    digit-up digit_up
    digit-with digit_with
    digit-zero digit-zero
    digits-end digits_end
    digits-stay digits_stay
    draft-request draft_request
    drop-blocks drop_blocks
    drop-none drop_none
    drop-pasts drop-pasts
    due-of due_of
    due-points due_points
    edge-inside edge_inside
    edge-once edge_once
    ended-now ended_now
    ends-among ends_among
    ends-beyond ends_beyond
    ends-past ends_past
    ends-spotted ends_spotted
    ends-told ends_told
    enter-answer enter_answer
    enter-lines enter_lines
    enter-rows enter_rows
    enters-lines enters_lines
    entry-flaw entry_flaw
    fail-long fail_long
    fallen-back fallen_back
    fault-at fault_at
    fed-after fed_after
    fed-answer fed_answer
    feed-answer feed_answer
    feed-both feed_both
    fields-done fields_done
    fields-more fields_more
    find-below find_below
    first-begins first_begins
    first-digit first_digit
    first-row first_row
    first-standing first_standing
    fitting-end fitting_end
    fitting-step fitting_step
    flawed-blank flawed_blank
    flawed-gap flawed_gap
    flawed-letters flawed_letters
    flaws-more flaws_more
    followed-more followed_more
    follows-at follows_at
    follows-none follows_none
    from-blank from_blank
    from-column from_column
    from-inside from_inside
    from-keyword from_keyword
    from-keywords from_keywords
    from-lag from_lag
    from-points from_points
    gap-clean gap_clean
    gap-count gap_count
    gap-field gap_field
    gap-first gap_first
    gap-flaw gap_flaw
    gap-later gap_later
    gap-ok gap_ok
    gap-read gap_read
    gap-texts gap_texts
    gap-there gap_there
    gap-value gap_value
    gaps-again gaps_again
    gaps-even gaps_even
    gaps-in gaps_in
    gaps-lent gaps_lent
    gaps-more gaps_more
    gaps-read gaps_read
    gaps-up-to gaps_up_to
    good-letters good_letters
    grow-new grow_new
    grow-old grow_old
    has-any has_any
    has-number has_number
    has-whole has_whole
    held-cell-count held_cell_count
    held-cells held_cells
    held-fit held_fit
    held-gaps held_gaps
    held-keyword-count held_keyword_count
    held-keyword-rows held_keyword_rows
    held-keywords held_keywords
    held-lines held_lines
    held-numbers held_numbers
    held-proper held_proper
    here-edge here_edge
    how-many how_many
    how-many-add how_many-add
    how-many-digits how_many_digits
    how-many-le how_many-le
    how-many-low how_many_low
    how-many-none how_many_none
    how-many-same how_many_same
    how-many-word how_many-word
    in-book in_book
    in-first in_first
    in-neither in_neither
    in-second in_second
    in-slots in_slots
    in-turn in_turn
    in-word in_word
    in-x in_x
    inside-parts inside_parts
    inside-place inside_place
    is-armed is_armed
    is-blank is_blank
    is-letter is_letter
    is-row-length is_row_length
    joined-after joined_after
    joined-append joined-append
    joined-cut joined-cut
    joined-map joined-map
    keyword-at keyword_at
    keyword-back keyword_back
    keyword-clean keyword_clean
    keyword-count keyword_count
    keyword-flaw keyword_flaw
    keyword-flaws keyword_flaws
    keyword-ok keyword_ok
    keyword-push keyword_push
    keyword-room keyword_room
    keyword-rows keyword_rows
    keyword-rows-again keyword_rows_again
    keyword-rows-from keyword_rows_from
    keyword-words keyword_words
    keywords-after keywords_after
    keywords-again keywords_again
    keywords-are keywords_are
    keywords-in keywords_in
    keywords-laid keywords_laid
    keywords-whole keywords_whole
    label-found label_found
    label-none label_none
    lag-field lag_field
    lag-ok lag_ok
    lag-read lag_read
    lag-there lag_there
    laid-after laid_after
    laid-append laid-append
    laid-back laid_back
    laid-in-turn laid_in_turn
    laid-pairs laid_pairs
    laid-parts laid_parts
    laid-total laid_total
    last-below last_below
    last-or-less last_or_less
    leads-to leads_to
    length-block length_block
    length-blocks length_blocks
    length-flaw length_flaw
    length-here length_here
    length-left length-left
    length-ok length_ok
    length-one length_one
    length-others length_others
    length-passing length-passing
    length-right length-right
    length-rising length-rising
    length-sign length_sign
    length-text length-text
    length-turned length-turned
    length-waiting length-waiting
    lengths-again lengths_again
    lengths-cut lengths-cut
    lengths-in lengths_in
    lengths-more lengths_more
    lengths-ok lengths_ok
    lengths-up-to lengths_up_to
    letter-admits letter_admits
    letter-cell-of letter_cell_of
    letter-field letter_field
    letter-flaw letter_flaw
    letter-hears letter_hears
    letter-here letter_here
    letter-of letter_of
    letter-written letter_written
    letters-again letters_again
    letters-at letters_at
    letters-end letters_end
    letters-in letters_in
    letters-left letters_left
    letters-none letters_none
    letters-of letters_of
    letters-stay letters_stay
    letters-step letters_step
    letters-there letters_there
    line-5 line_5
    line-7 line_7
    line-9 line_9
    line-back line_back
    line-count line_count
    line-occurs line_occurs
    line-request line_request
    line-room line_room
    line-rows line_rows
    line-rows-from line_rows_from
    line-told line_told
    lines-entered lines_entered
    lines-in lines_in
    lines-laid lines_laid
    lines-push lines_push
    listed-book listed_book
    lives-on lives_on
    long-gap long_gap
    long-lag long_lag
    long-number long_number
    long-points long_points
    long-row long_row
    looked-back looked_back
    map-reverse map-reverse
    mark-at mark_at
    mark-below mark_below
    mark-blank mark_blank
    mark-past mark_past
    meets-earlier meets_earlier
    meets-end meets_end
    meets-here meets_here
    meets-root meets_root
    meets-same meets_same
    meets-step meets_step
    meets-within meets_within
    member-number member_number
    members-road members_road
    moment-of moment_of
    more-at more_at
    more-count more_count
    moved-low moved_low
    narrow-gaps narrow_gaps
    never-empty never_empty
    next-flaw next_flaw
    next-further next_further
    next-letter next_letter
    next-long next_long
    next-moment next_moment
    next-rows next_rows
    no-blank no_blank
    no-first-gap no_first_gap
    no-further no_further
    no-letters no_letters
    no-rest no_rest
    none-absent none_absent
    none-empty none_empty
    none-ended none_ended
    none-linked none_linked
    none-reported none_reported
    none-stands none_stands
    none-twice none_twice
    nonzeros-le nonzeros-le
    nonzeros-lt nonzeros-lt
    nonzeros-none nonzeros_none
    nonzeros-set nonzeros-set
    not-below not_below
    not-one not_one
    not-two not_two
    now-spotted now_spotted
    number-field number_field
    number-fields number_fields
    number-there number_there
    numbers-again numbers_again
    numbers-reported numbers_reported
    numbers-within numbers_within
    of-first of_first
    of-second of_second
    of-whole of_whole
    old-most old_most
    oldest-first oldest_first
    on-link on_link
    on-scale on_scale
    one-on-no one_on_no
    one-on-yes one_on_yes
    one-up-first one_up_first
    open-book open_book
    opened-more opened_more
    opened-push opened_push
    or-false or_false
    or-first or_first
    or-none or_none
    or-swapped or_swapped
    own-marks own_marks
    own-number own_number
    own-part own_part
    p-is p_is
    page-answer page_answer
    page-book page_book
    page-cells page_cells
    page-length page_length
    page-of page_of
    page-outcome page_outcome
    pair-at pair_at
    pairs-push pairs_push
    pairs-wide pairs_wide
    pass-append pass_append
    pass-at pass_at
    pass-drop pass_drop
    pass-map pass_map
    pass-take pass_take
    pass-weaker pass_weaker
    passes-behind passes_behind
    passes-front passes_front
    passes-letter passes_letter
    passes-past passes_past
    passing-each passing_each
    passing-few passing_few
    passing-has passing_has
    passing-least passing_least
    passing-none passing_none
    passing-same passing_same
    past-book past_book
    past-in past_in
    place-begins place_begins
    place-cases place_cases
    place-first place_first
    placed-turned placed_turned
    plant-new plant_new
    plant-none plant_none
    plant-old plant_old
    planted-to planted_to
    points-are points_are
    points-back points_back
    points-field points_field
    points-in points_in
    points-minus points_minus
    points-ok points_ok
    points-plain points_plain
    points-read points_read
    points-sum points_sum
    points-there points_there
    prefix-ends prefix_ends
    proper-at proper_at
    proper-few proper_few
    proper-more proper_more
    proper-some proper_some
    put-after put_after
    put-answer put_answer
    put-slots put_slots
    queued-all queued_all
    queued-within queued_within
    ran-more ran_more
    ran-none ran_none
    ran-step ran_step
    reach-at reach_at
    reach-rows reach_rows
    read-line read_line
    reading-of reading_of
    reads-back reads_back
    recent-is recent_is
    refusal-row refusal_row
    refuse-alike refuse_alike
    refused-stays refused_stays
    replies-push replies_push
    reported-any reported_any
    reported-is reported_is
    request-back request_back
    rest-before rest_before
    rest-clear rest_clear
    rest-set rest-set
    rest-whole rest_whole
    right-stays right_stays
    rising-few rising_few
    rising-from rising_from
    rising-has rising_has
    rising-members rising_members
    room-ok room_ok
    root-turned root_turned
    row-begins row_begins
    row-end row_end
    row-flaw row_flaw
    row-length row_length
    row-numbers row_numbers
    row-own row_own
    row-request row_request
    row-size row_size
    row-span row_span
    row-stops row_stops
    row-wide row_wide
    rows-again rows_again
    rows-count rows_count
    rows-done rows_done
    rows-gaps rows_gaps
    rows-laid rows_laid
    rows-length rows-length
    rows-lengths rows_lengths
    rows-open rows_open
    rows-wide rows_wide
    rule-none rule_none
    rules-of rules_of
    run-here run_here
    run-suffix run_suffix
    runs-among runs_among
    same-and same_and
    same-distance same_distance
    same-feed same_feed
    same-letter same_letter
    same-marks same_marks
    same-members same_members
    same-moment same_moment
    same-reports same_reports
    same-request same_request
    same-rising same_rising
    same-samples same_samples
    sealed-book sealed_book
    set-from set_from
    set-turned set-turned
    shifted-first shifted_first
    sign-short sign_short
    signed-not-blank signed_not_blank
    signed-stays signed_stays
    size-end size_end
    sized-after sized_after
    sized-flaw sized_flaw
    sized-gaps sized_gaps
    sized-keywords sized_keywords
    small-points small_points
    some-cell some_cell
    some-here some_here
    some-keyword some_keyword
    some-length some_length
    some-no some_no
    some-yes some_yes
    spotted-among spotted_among
    spotted-behind spotted_behind
    spotted-front spotted_front
    spotted-here spotted_here
    spotted-past spotted_past
    standing-answer standing_answer
    standing-at standing_at
    standing-in standing_in
    stands-in stands_in
    stands-inside stands_inside
    start-in start_in
    starts-after starts_after
    state-turned state_turned
    state-turned-by state_turned_by
    states-long states_long
    step-child step_child
    step-none step_none
    still-absent still_absent
    still-distinct still_distinct
    still-long still_long
    stored-few stored_few
    suffix-admits suffix_admits
    suffix-from suffix_from
    suffix-run suffix_run
    sum-parted sum_parted
    t-false t_false
    take-filled take-filled
    take-held take-held
    take-reverse take-reverse
    taken-newest taken_newest
    taken-run taken_run
    ten-more ten_more
    ten-most ten_most
    texts-stay texts_stay
    then-all then_all
    then-push then_push
    third-is third_is
    tick-of-first tick_of_first
    tick-of-second tick_of_second
    tick-row tick_row
    tick-shared tick_shared
    total-append total-append
    total-is total_is
    total-lengths total-lengths
    total-more total_more
    total-take total-take
    turn-kept turn_kept
    turn-of turn_of
    turned-at turned_at
    turned-first turned_first
    turned-next turned_next
    turned-past turned_past
    turned-start turned_start
    turns-long turns_long
    unsized-flaw unsized_flaw
    value-end value_end
    value-step value_step
    watched-from watched_from
    watched-row watched_row
    when-made when_made
    when-none when_none
    when-passes when_passes
    whole-decimal whole_decimal
    width-push width_push
    width-reverse width-reverse
    within-child within_child
    within-done within_done
    within-earlier within_earlier
    within-root within_root
    within-turns within_turns
    word-admits word_admits
    word-clear word_clear
    words-some words_some
"""

# fields of records, which stand behind a dot
FIELDS = "by_command cell_room fail_long in_first in_neither in_second keyword_room next_long no_gap none_twice row_room states_long tick_of_first tick_of_second turns_long".split()

TABLE = dict(line.split() for line in NAMES.split("\n") if line.strip())
# after a dot a dash in one of these is a field's
BEHIND = {f.replace("_", "-"): f for f in FIELDS}
TOKEN = re.compile(r"[^\s(){}\[\];,@\\\"λ⌜⌝«»]+")
DASHED = re.compile(r"\w-\w")
GOAL = re.compile(r"(invariant|decreases|loop|returns|bounds|overflow|slice-bounds)-|.*-requires")


def library(text):
    """The names that a file brings in from the library, or from the goals of a function."""
    names = set()
    for path, listed in re.findall(r"use (\S+)\.\{([^}]*)\}", text):
        if path.startswith("Rattle.std") or not path.startswith("Rattle.") or path.endswith(".Goals") or path.endswith(".Given"):
            for item in listed.split(","):
                names.update(w for w in item.split() if w != "as")
    return names


def respelled(token, kept, local):
    parts = token.split(".")
    head = parts[0]
    if head not in kept:
        if head in TABLE:
            parts[0] = TABLE[head]
        elif local and DASHED.search(head) and not GOAL.match(head):
            parts[0] = head.replace("-", "_")
    for i in range(1, len(parts)):
        if parts[i] in BEHIND and parts[i - 1] not in ("c", "goal"):
            parts[i] = BEHIND[parts[i]]
        elif parts[0] == "Rattle" and parts[i] in TABLE:
            parts[i] = TABLE[parts[i]]
    return ".".join(parts)


def turned(line, kept, local):
    return TOKEN.sub(lambda m: respelled(m.group(0), kept, local), line)


def antt(path, text):
    kept = library(text)
    # goals that a file answers
    kept.update(re.findall(r"(?m)^\s*(?:abbrev )?pub (\S+) : goal\.", text))
    walk = os.path.basename(path) in ("Answers.antt", "Invariants.antt")
    # in a proof of a function only names bound there are local: the steps have dashes too
    bound = set(re.findall(r"(?:let|λ|where)\s+\(?([^\s:()=.]+)", text)) if walk else set()
    lines = []
    for line in text.split("\n"):
        code, comment = (line, "")
        at = re.search(r"(^|\s)-- ", line)
        if at:
            code, comment = line[: at.start()], line[at.start() :]

        def one(m):
            token = m.group(0)
            head = token.split(".")[0]
            return respelled(token, kept, not walk or head in bound)

        lines.append(TOKEN.sub(one, code) + comment)
    return "\n".join(lines)


def rattle(text):
    kept = library(text)
    lines = []
    for line in text.split("\n"):
        code, slashes, comment = line.partition("//")
        comment = re.sub(r"`([^`]+)`", lambda m: "`" + TABLE.get(m.group(1), m.group(1)) + "`", comment)
        lines.append(turned(code, kept, False) + slashes + comment)
    return "\n".join(lines)


def main():
    for folder, dirs, files in os.walk("crates"):
        dirs[:] = sorted(d for d in dirs if d != "out")
        for name in sorted(files):
            path = os.path.join(folder, name)
            if not name.endswith((".antt", ".rt", ".edit")):
                continue
            with open(path, encoding="utf-8") as f:
                old = f.read()
            new = antt(path, old) if name.endswith(".antt") else rattle(old)
            if new != old:
                with open(path, "w", encoding="utf-8") as f:
                    f.write(new)


if __name__ == "__main__":
    main()
