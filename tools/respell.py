#!/usr/bin/env python3
"""Brings the names of this repository's definitions, lemmas and fields to the spelling of today's Rattle, once.

usage: python3 tools/respell.py        at the top, right after the kit's own script

Functions, lemmas and fields are in snake case, and a dash joins two names of definitions. A lemma that would have the
name of its definition gets `_lem`, and a definition that would have the name of a function of src/ gets `_of`. Only
whole words of specs/, proofs/, src/ and must-fail/ are turned; functions of src/ keep their names.
"""

import os
import re

NAMES = """
kindOf=kind_of codeOf=code_of entryOf=entry_of
accept-then=accept_then accepted-counted=accepted_counted accepted-meets=accepted_meets add-class=add_class
after-size=after_size afterSpot=after_spot_of alike-le=alike_le alike-total=alike_total all-fronts=all_fronts
all-is-each=all_is_each all-places=all_places allRods=all_rods alone-by=alone_by answer-is=answer_is
answerTo=answer_to answers-all=answers_all answers-are=answers_are answers-more=answers_more
answersAfter=answers_after answersFrom=answers_from answersRoom=answers_room answersTo=answers_to
apart-append=apart_append apart-keep=apart_keep apart-with=apart_with append-class=append_class asRefused=as_refused
ask-back=ask_back ask-fits=ask_fits ask-front=ask_front at-first-place=at_first_place back-moved=back_moved
back-of=back_of backOf=back_of backs-are=backs_are before-tells=before_tells beforeSpot=before_spot_of
begins-long=begins_long begins-within=begins_within behind-follows=behind_follows bounded-eighth=bounded_eighth
bucketAt=bucket_at bucketOf=bucket_of built-mirrors=built_mirrors built-sound=built_sound by-slot=by_slot
chain-empty=chain_empty chain-enter=chain_enter chartEntryOf=chart_entry_of checkedSize=checked_size_of
checkedSizeWithWork=checked_size_with_work_of checks-are=checks_are choose-free=choose_free choose-lt=choose_lt
choose-settled=choose_settled chosen-early=chosen_early class-apart=class_apart class-below=class_below
class-fits=class_fits class-length=class_length class-more=class_more class-room=class_room
class-shuffled=class_shuffled codes-number=codes_number codesChecked=codes_checked columnTo=column_to
columns-fit=columns_fit columnsChecked=columns_checked count-free=count_free count-total=count_total
counted-accepted=counted_accepted counted-all=counted_all counted-more=counted_more counted-pairs=counted_pairs
counter-small=counter_small counts-more=counts_more counts-moved=counts_moved counts-none=counts_none
counts-number=counts_number countsChecked=counts_checked crossings-bound=crossings_bound
crossings-shared=crossings_shared displacement-like=displacement_like displacement-lt=displacement_lt
displacement-shuffled=displacement_shuffled displacementsPart=displacements_part distinct-classes=distinct_classes
distinct-shuffled=distinct_shuffled each-has=each_has each-held=each_held each-in-class=each_in_class
each-is-all=each_is_all each-of-class=each-of_class each-shuffled=each_shuffled each-with=each_with
emptied-here=emptied_here emptied-other=emptied_other enough-links=enough_links entered-above=entered_above
entered-level=entered_level entered-more=entered_more entered-room=entered_room entered-within=entered_within
entry-cases=entry_cases entry-fits=entry_fits entry-is=entry_is entryIn=entry_in entryNumber=entry_number
eqb-flips=eqb_flips eqb-shift=eqb_shift eqb-sym=eqb_sym falling-apart=falling_apart fill-law=fill_law
filledFrom=filled_from first-is=first_is first-list=first_list_lem first-long=first_long first-lt=first_lt
first-place=first_place first-place-back=first_place_back first-place-fits=first_place_fits
first-place-is=first_place_is first-place-lt=first_place_lt first-place-map=first_place-map
first-place-shuffled=first_place_shuffled first-places=first_places first-places-are=first_places_are
first-places-fit=first_places-fit first-places-within=first_places-within first-shuffled=first_shuffled
firstLength=first_length firstList=first_list firstPlaceOf=first_place_of firstRefusal=first_refusal
firsts-are=firsts_are fit-none-large=fit-none_large fit-shuffled=fit_shuffled flip-above=flip_above
flip-below=flip_below flip-bit=flip_bit folded-below=folded_below follows-like=follows_like form-read=form_read
found-fits=found_fits front-last=front_last front-mod=front_mod front-more=front_more frontOf=front_of
fronts-are=fronts_are fullCount=full_count half-pairs=half_pairs halfPart=half_part halves-same=halves_same
halvesChecked=halves_checked headed-more=headed_more headed-none=headed_none headed-within=headed_within
hold-other=hold_other holdsCode=holds_code home-kept=home_kept if-fits=if_fits_lem ifFits=if_fits ifOk=if_ok
in-ledger=in_ledger in-range=in_range insert-asked=insert_asked_lem insert-free=insert_free insertAsked=insert_asked
insertAt=insert_at keep-passes=keep_passes large-class=large_class large-law=large_law large-map=large_map
large-number=large_number largeDisplacement=large_displacement largeFrom=large_from largeHalf=large_half_of
largeIn=large_in last-class=last_class last-here=last_here last-le=last_le last-other=last_other
lastly-tells=lastly_tells layerOf=layer_of le-square=le_square ledgerAfter=ledger_after ledgerAt=ledger_at
length-entered=length_entered length-first-places=length-first_places letterOf=letter_of light-many=light_many
light-none=light_none light-ones=light_ones linked-falls=linked_falls linked-more=linked_more
linked-none=linked_none listPart=list_part lone-more=lone_more look-fits=look_fits look-hold=look_hold
lookUp=look_up lookUpAt=look_up_at looked-up-none=looked_up-none looked-up-tells=looked_up_tells lookedUp=looked_up
lookup-missing=lookup_missing lookupAsked=lookup_asked lt-add-one=lt_add_one made-entry=made_entry
made-rounds=made_rounds madePart=made_part map-over=map_over matches-after=matches_after matches-from=matches_from
meets-accepted=meets_accepted meets-same=meets_same member-fits=member_fits members-law=members_law
members-law-columns=members_law_columns mirrors-at=mirrors_at mirrors-from=mirrors_from more-step=more_step
moreGroups=more_groups moved-fits=moved_fits moved-of=moved_of new-all=new_all new-answers=new_answers
new-first=new_first new-none-repeated=new_none-repeated new-not-among=new_not_among new-places=new_places
new-second=new_second new-slots=new_slots none-large-fit=none_large_fit none-repeated-new=none-repeated_new
none-same-by=none-same_by none-with=none_with not-among-first=not_among-first not-among-new=not_among_new
not-found-fits=not_found_fits notFound=not_found notMade=not_made nth-set-other=nth_set_other
nth-set-same=nth_set-same nth-some=nth_some numberOf=number_of of-class=of_class of-class-like=of_class_like
of-class-map=of_class-map of-own=of_own old-answers=old_answers old-first=old_first old-second=old_second
old-slots=old_slots once-each=once_each or-false=or_false or-first=or_first order-apart=order_apart
order-follows=order_follows order-free=order_free order-holds=order_holds order-light=order_light
order-total=order_total other-bucket=other_bucket other-false=other_false other-first=other_first
other-second=other_second other-slots=other_slots out-all=out_all out-long=out_long outcomes-same=outcomes_same
own-entry=own_entry own-pattern=own_pattern own-rods=own_rods own-stroke=own_stroke pairs-are=pairs_are
pairs-bound=pairs_bound pairsAnswer=pairs_answer patternOf=pattern_of pick-lt=pick_lt picked-within=picked_within
place-fits=place_fits place-in-is=place_in_is place-lt=place_lt place-shuffled=place_shuffled
place-within=place_within_lem placeFor=place_for placeWithin=place_within places-apart=places_apart
places-are=places_are places-fit=places_fit places-long=places_long places-unshared=places_unshared
places-within=places_within placesLength=places_length placesPerMember=places_per_member putAt-last=put_at-last
putAt-more=put_at-more raised-mod=raised_mod readAt=read_at reading-longer=reading_longer
reading-no-byte=reading_no_byte reading-on=reading_on reading-one=reading_one reading-over=reading_over
reading-top=reading_top reads-back=reads_back reads-front=reads_front reads-written=reads_written
refusals-same=refusals_same remove-missing=remove_missing removeAsked=remove_asked removeAt=remove_at
removed-length=removed_length renewed-other=renewed_other repeated-is=repeated_is
repeated-map-seen=repeated-map_seen repeatedFrom=repeated_from repeatedIn=repeated_in
replace-missing=replace_missing replaceAsked=replace_asked replaceAt=replace_at result-lt=result_lt
result-shuffled=result_shuffled results-are=results_are results-total=results_total right-both=right_both
right-found=right_found right-if=right_if rods-below=rods_below rodsNumber=rods_number rodsOf=rods_of
room-lone=room_lone room-many=room_many round-apart=round_apart round-bound=round_bound
round-bound-double=round_bound_double round-fits=round_fits_lem rows-le=rows_le rows-push=rows_push
rows-with=rows_with run-keeps=run_keeps run-law=run_law same-bucket=same_bucket same-counts=same_counts
same-entry=same_entry same-fields=same_fields same-flip=same_flip same-folded=same_folded same-halves=same_halves
same-itself=same_itself same-join=same_join same-other=same_other same-stake=same_stake sameAt=same_at
sameCode=same_code scale-le=scale_le scanned-err=scanned_err scanned-on=scanned_on search-end=search_end
search-found=search_found search-here=search_here search-law=search_law search-more=search_more
search-start=search_start second-list=second_list_lem second-long=second_long second-shuffled=second_shuffled
secondLength=second_length secondList=second_list seconds-are=seconds_are serve-keeps=serve_keeps
shared-double=shared_double shared-like=shared_like shared-pairs=shared_pairs_of shared-pairs-map=shared_pairs-map
shared-pairs-shuffled=shared_pairs_shuffled shared-push=shared_push shared-rows=shared_rows
shared-shuffled=shared_shuffled shelfNumber=shelf_number shelfOf=shelf_of shortList=short_list shown-is=shown_is
signed-fits=signed_fits sizes-le=sizes_le sizes-more=sizes_more sizes-none=sizes_none skip-lone=skip_lone
skip-many=skip_many slot-for=slot_for_lem slot-here=slot_here slot-list=slot_list_lem slot-other=slot_other
slotFor=slot_for slotList=slot_list slots-all=slots_all slots-are=slots_are slots-beyond=slots_beyond
slots-here=slots_here slots-long=slots_long slots-more=slots_more slots-other=slots_other slotsAfter=slots_after
slotsAfterCall=slots_after_call slotsAfterCalls=slots_after_calls slotsAt=slots_at slotsFrom=slots_from
slotsLength=slots_length small-class=small_class so-far-once=so_far_once some-heads=some_heads some-made=some_made
sound-after=sound_after sound-kept=sound_kept square-large=square_large stake-fits=stake_fits_lem
strokeNumber=stroke_number strokeOf=stroke_of take-lone=take_lone take-many=take_many take-one=take_one
taken-by=taken_by taken-room=taken_room taken-total=taken_total takes-firsts=takes_firsts
takes-seconds=takes_seconds test-failed=test_failed then-accepted=then_accepted then-local=then_local
then-refuse=then_refuse times-append=times_append times-keep=times_keep times-past=times_past topGroup=top_group
total-add=total_add total-append=total_append total-at=total_at total-away=total_away
total-class-cons=total_class_cons total-classes=total_classes total-each=total_each total-falling=total_falling
total-keep=total_keep total-map=total_map total-of-class=total_of_class total-same=total_same
total-shuffled=total_shuffled total-squares=total_squares total-sumBy=total_sum_by two-squares=two_squares
unfolded-fits=unfolded_fits unfolded-folded=unfolded_folded with-key=with_key with-key-alike=with_key-alike
with-key-append=with_key-append with-key-like=with_key_like with-key-map=with_key-map with-key-same=with_key-same
with-key-size=with_key-size with-key-total=with_key_total with-key-xor=with_key-xor with-place-by=with_place_by
with-place-tells=with_place_tells withEntry=with_entry withPlace=with_place work-long=work_long
workLength=work_length workPerPlace=work_per_place writeAnswer=write_answer written-here=written_here
written-other=written_other written-shuffled=written_shuffled xor-cancel=xor_cancel
"""

# Definitions of one crate that would have the name of a ghost member.
ROWS = {"frontOf": "row_front", "backOf": "row_back"}
ROWS_FILES = {
    "crates/codes/specs/Rows.antt",
    "crates/codes/specs/RowLaws.antt",
    "crates/codes/proofs/RowLaws.antt",
    "crates/codes/src/cells/halves.rt",
    "crates/codes/src/rows/halves.rt",
}

WORD = re.compile(r"(?<![\w'-])[A-Za-z_][\w'-]*")
MEMBER = re.compile(r"\bghost (frontOf|backOf) =")


def table():
    return dict(pair.split("=") for pair in NAMES.split())


def turned(path, text, names):
    rows = ROWS if path in ROWS_FILES else {}
    text = MEMBER.sub(lambda m: "ghost " + names[m.group(1)] + " =", text)
    return WORD.sub(lambda m: rows.get(m.group(0), names.get(m.group(0), m.group(0))), text)


def main():
    names = table()
    for folder, dirs, files in os.walk("crates"):
        dirs[:] = sorted(d for d in dirs if d != "out")
        for name in sorted(files):
            if not name.endswith((".antt", ".rt", ".edit")):
                continue
            path = os.path.join(folder, name)
            with open(path, encoding="utf-8") as f:
                old = f.read()
            new = turned(path, old, names)
            if new != old:
                with open(path, "w", encoding="utf-8") as f:
                    f.write(new)


main()
