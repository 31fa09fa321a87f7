#!/usr/bin/env python3
"""Brings the names of definitions and lemmas to the spelling of today's Rattle: words in snake case, types in camel case.

usage: tools/spell_names.py [FOLDER]     once, at the top of a repository that port.py has turned

It goes over the .rt and .antt files of crates/, and leaves comments and strings as they are.
"""
import os
import re
import sys

NAMES = dict(pair.split("=") for pair in """
    Accounts-told=AccountsTold All-named=AllNamed Book-stands=BookStands Books-stand=BooksStand
    Clearing-within=ClearingWithin Exactly-made=ExactlyMade Fair-call=FairCall
    Fair-shares=FairShares Goes_on=GoesOn Holdings-kept=HoldingsKept Holds-day=HoldsDay Known-bonds=KnownBonds
    Leads-to=LeadsTo Loans-kept=LoansKept Loans-told=LoansTold May-lend=MayLend Moves-so=MovesSo
    Moves-well=MovesWell Never-short=NeverShort None-holds=NoneHolds None-makes=NoneMakes
    Order-good=OrderGood Out-quiet=OutQuiet Passes-on=PassesOn Pledges-kept=PledgesKept
    Presets-told=PresetsTold Row-passes=RowPasses Rows-pass=RowsPass Shares-fair=SharesFair
    Swap-good=SwapGood Terms-good=TermsGood Two-moves=TwoMoves Units-told=UnitsTold
    Well-made=WellMade Well-named=WellNamed above-here=above_here accepted-day=accepted_day
    accepted-only=accepted_only accepted-settles=accepted_settles account-at=account_at
    account-faults=account_faults account-of=account_of accounts-in-mode=accounts_in_mode
    after-move=after_move after-moves=after_moves after-step=after_step all-at=all_at
    all-passed=all_passed all-shut=all_shut amountAt=amount_at amountFor=amount_for
    answered-after=answered_after answeredIn=answered_in apart-set=apart_set
    apart-there=apart_there ask-rules=ask_rules at-day=at_day at-lender=at_lender
    at-price=at_price at-time=at_time at-times=at_times at-units=at_units
    available-column=available_column available-face=available_face
    available-moved=available_moved available-same=available_same available-told=available_told
    awaitedIn=awaited_in awaitedOf=awaited_of bad-account=bad_account bad-bond=bad_bond
    bit-and=bit_and_digit bit-or=bit_or_digit blank-at=blank_at blank-length=blank_length
    blank-plan=blank_plan blank-rows=blank_rows bond-at=bond_at bond-back=bond_back
    bond-book=bond_book bond-faults=bond_faults bond-of=bond_of bond-places=bond_places
    bondAt=bond_in bondLine=bond_line bondTotal=bond_total book-fits=book_fits
    book-moved=book_moved book-on=book_on book-together=book_together booked-by=booked_by
    books-by=books_by books-stand=books_stand borrow-booked=borrow_booked borrow-fair=borrow_fair
    borrow-rules=borrow_rules borrowed-all=borrowed_all borrowed-by=borrowed_by
    both-count=both_count brings-cash=brings_cash brings-coupon=brings_coupon
    by-verdict=by_verdict capped-sum=capped_sum capped-within=capped_within cappedAt=capped_at
    cash-book=cash_book cash-column=cash_column cash-in=cash_in cash-places=cash_places
    ceil-le=ceil_le chosen-named=chosen_named clearing-within=clearing_within
    clearingOf=clearing_of clock-rules=clock_rules column-amounts=column_amounts
    comes-takes=comes_takes counts-more=counts_more coversOf=covers_of day-after=day_after
    day-by=day_by day-by-same=day_by_same deal-on=deal_on deal-rules=deal_rules
    deliver-rules=deliver_rules delivered-in=delivered_in delivered-out=delivered_out
    due-on=due_on each-length=each_length enough-p=enough_p enough-r=enough_r
    enough-there=enough_there even-law=even_law even-length=even_length evenShares=even_shares
    face-all=face_all face-lent=face_lent faceOf=face_of faceOut=face_out fair-by=fair_by
    falls-short=falls_short fallsLate=falls_late faultOf=fault_of fee-paid=fee_paid feeFor=fee_for
    feeOf=fee_of few-set=few_set figures-rules=figures_rules figuresOf=figures_of
    filled-all=filled_all first-after=first_after first-bad=first_bad first-before=first_before
    first-law=first_law first-length=first_length first-moved=first_moved first-named=first_named
    first-sum=first_sum first-within=first_within firstShares=first_shares floor-below=floor_below
    floor-high=floor_high floor-is=floor_is floor-low=floor_low floorPart=floor_part
    floorParts=floor_parts floorParts-le=floor_parts_le floorParts-length=floor_parts_length
    floorParts-none=floor_parts_none floors-high=floors_high floors-le=floors_le
    floors-low=floors_low floors-none=floors_none forShare=for_share found-is=found_is
    four-none=four_none four-places=four_places front-all=front_all front-more=front_more
    gather-before=gather_before gather-leave=gather_leave gather-leave-none=gather_leave_none
    gather-moves=gather_moves gather-reach=gather_reach good-bond=good_bond
    good-face=good_face_kept goodFace=good_face halfUp=half_up has-bad=has_bad
    held-lowest=held_lowest held-many=held_many holding-told=holding_told holdings-by=holdings_by
    holdings-kept=holdings_kept holds-and=holds_and holds-none=holds_none holds-one=holds_one
    holds-or=holds_or holds-suc=holds_suc house-without-right=house_without_right
    houseKeeps=house_keeps if-accepted=if_accepted in-column=in_column in-mode=in_mode
    inUnits=in_units inWindow=in_window interest-owed=interest_owed is-full=is_full
    isClosed=is_closed isOut=is_out isSound=is_sound isUnfunded=is_unfunded
    joined-after=joined_after joined-before=joined_before joined-named=joined_named
    kept-rules=kept_rules keptIn=kept_in keptOf=kept_of kind-of=kind_of
    largestAmount=largest_amount law-of-rule=law_of_rule leads-on=leads_on
    leave-available=leave_available leave-pledged=leave_pledged leaves-joined=leaves_joined
    left-none=left_none left-small=left_small left-some=left_some left-waits=left_waits
    leftOver=left_over lendable-by=lendable_by lendable-by-told=lendable_by_told
    lendable-held=lendable_held lendable-list-same=lendable_list_same
    lendable-rules=lendable_rules lendable-same=lendable_same lendable-to=lendable_to
    lendable-to-held=lendable_to_held lendable-to-told=lendable_to_told
    lendable-told=lendable_told lendableAnswer=lendable_answer lendableAt=lendable_at
    lendableOf=lendable_of lenderParts=lender_parts lent-above=lent_above lent-all=lent_all
    lent-apart=lent_apart lent-enough=lent_enough lent-face=lent_face_told lent-room=lent_room
    lent-rules=lent_rules lent-together=lent_together lentFace=lent_face lentValue=lent_value
    lentWorth=lent_worth letterOf=letter_of limits-all=limits_all limits-from=limits_from
    limits-here=limits_here limits-more=limits_more limits-named=limits_named loan-at=loan_at
    loan-made=loan_made loan-makes=loan_makes loan-meant=loan_meant loan-moved=loan_moved
    loan-moves=loan_moves loan-refused=loan_refused loan-rules=loan_rules loan-told=loan_told
    loanOf=loan_of loans-by=loans_by loans-kept=loans_kept loans-rules=loans_rules
    loansOf=loans_of low-off=low_off low-on=low_on lowest-is=lowest_is mapOk=map_ok
    mapped-all=mapped_all mapped-more=mapped_more markedLate=marked_late may-stand=may_stand
    mayBorrow=may_borrow mayLend=may_lend member-there=member_there mode-by=mode_by
    mode-rules=mode_rules mode-told=mode_told move-made=move_made move-rules=move_rules
    multiplierAt=multiplier_at multiplierOf=multiplier_of neededFor=needed_for netted-at=netted_at
    netted-length=netted_length netted-set=netted_set never-freed=never_freed
    never-short=never_short next-day=next_day next-rules=next_rules no-account=no_account
    no-bond=no_bond no-cash=no_cash no-figure=no_figure no-figures=no_figures no-loan=no_loan
    no-net=no_net no-shares=no_shares no-such-loan=no_such_loan none-above-at=none_above_at
    none-faced=none_faced none-holds=none_holds none-joined=none_joined
    none-lendable=none_lendable none-makes=none_makes none-moved=none_moved none-past=none_past
    not-available=not_available not-open=not_open not-pledged=not_pledged not-shut=not_shut
    obeys-by=obeys_by obeys-by-bonds=obeys_by_bonds obeys-by-cash=obeys_by_cash
    obeys-by-records=obeys_by_records of-digits=of_digits on-day=on_day one-within=one_within
    oneOn=one_on ones-count=ones_count opened-at=opened_at opened-books=opened_books
    opened-nets=opened_nets opened-recorded=opened_recorded opened-records=opened_records
    opened-sound=opened_sound opening-bonds=opening_bonds opening-named=opening_named
    opening-rules=opening_rules opening-state=opening_state opening-verdict=opening_verdict
    openingOf=opening_of order-booked=order_booked order-good=order_good order-lends=order_lends
    order-named=order_named order-refused=order_refused order-rules=order_rules
    other-face=other_face other-rows=other_rows others-and=others_and
    outcome-answered=outcome_answered outcome-made=outcome_made outcomeOf=outcome_of
    over-all=over_all over-loans=over_loans own-day=own_day own-face=own_face own-none=own_none
    p-q=p_q p-r=p_r p-s=p_s part-below=part_below part-faults=part_faults
    parted-length=parted_length parted-none=parted_none parted-sum=parted_sum
    parted-within=parted_within past-loan=past_loan past-loans=past_loans past-pool=past_pool
    past-rows=past_rows past-worth=past_worth pay-moves=pay_moves pays-fee=pays_fee
    pays-interest=pays_interest place-rules=place_rules places-apart=places_apart
    pledgeOf=pledge_of pledged-all=pledged_all pledged-by=pledged_by pledged-column=pledged_column
    pledged-face=pledged_face pledged-moved=pledged_moved pledged-short=pledged_short
    pledged-told=pledged_told pledgedRow=pledged_row pledges-by=pledges_by
    pledges-kept=pledges_kept pool-rules=pool_rules preset-at=preset_at preset-by=preset_by
    preset-put=preset_put preset-told=preset_told presets-blank=presets_blank
    presets-count=presets_count presets-in-mode=presets_in_mode presets-wide=presets_wide
    price-rules=price_rules put-at=put_at q-s=q_s quota-rules=quota_rules r-q=r_q r-s=r_s
    rateOf=rate_of reach-available=reach_available reach-pledged=reach_pledged
    reaches-joined=reaches_joined read-too-large=read_too_large read-value=read_value
    readRows=read_rows recorded-by=recorded_by refuse-order=refuse_order
    refused-after=refused_after refused-answered=refused_answered refused-before=refused_before
    refused-handed=refused_handed refused-settles=refused_settles refused-with=refused_with
    refusedLine=refused_line remit-rules=remit_rules renews-fee=renews_fee
    rest-together=rest_together right-told=right_told room-new=room_new room-old=room_old
    room-parts=room_parts room-q=room_q room-refused=room_refused room-rules=room_rules
    room-s=room_s room-there=room_there roundedDown=rounded_down roundedUp=rounded_up
    row-above=row_above row-changed=row_changed row-fitted=row_fitted row-length=row_length
    row-limits=row_limits row-moves=row_moves row-over=row_over row-passes=row_passes
    row-pledged=row_pledged row-refused=row_refused row-rules=row_rules row-settles=row_settles
    row-there=row_there row-unfit=row_unfit rowFace=row_face rowValue=row_value rowWorth=row_worth
    rows-fitted=rows_fitted rows-leave=rows_leave rows-leave-none=rows_leave_none
    rows-length=rows_length rows-moved=rows_moved rows-pledged=rows_pledged rows-reach=rows_reach
    rows-reach-none=rows_reach_none rows-refused=rows_refused rows-room=rows_room
    rows-rules=rows_rules rows-there=rows_there rowsOut=rows_out rule-shares=rule_shares
    same-available=same_available same-day=same_day same-loan=same_loan same-pledged=same_pledged
    same-rule=same_rule same-shares=same_shares set-le=set_le set-nets=set_nets
    set-sound=set_sound settled-by=settled_by settled-day=settled_day settled-row=settled_row
    share-below=share_below share-fits=share_fits shares-borrowed=shares_borrowed
    shares-lent=shares_lent shares-make=shares_make shares-same=shares_same
    shares-told=shares_told shut-quiet=shut_quiet shut-rules=shut_rules shut-still=shut_still
    shut-told=shut_told shutOn=shut_on since-never=since_never some-face=some_face
    some-row=some_row some-shares=some_shares sound-at=sound_at sound-push=sound_push
    sound-read=sound_read sound-set=sound_set source-there=source_there step-made=step_made
    step-refused=step_refused stepped-on=stepped_on still-held=still_held stops-step=stops_step
    sum-four=sum_four sum-le=sum_le sum-times=sum_times swap-booked=swap_booked
    swap-good=swap_good swap-moves=swap_moves swap-over=swap_over swap-rules=swap_rules
    swap-together=swap_together target-there=target_there terms-good=terms_good
    terms-rules=terms_rules termsIn=terms_in termsOf=terms_of time-rules=time_rules
    timesUnit=times_unit told-count=told_count topped-length=topped_length topped-more=topped_more
    topped-none=topped_none topped-start=topped_start topped-sum=topped_sum
    topped-within=topped_within trailing-stops=trailing_stops trial-made=trial_made
    trial-refused=trial_refused two-apart=two_apart two-enough=two_enough two-members=two_members
    two-room=two_room two-together=two_together unclosedOf=unclosed_of under-below=under_below
    unit-told=unit_told units-at=units_at units-at-price=units_at_price unused-pass=unused_pass
    verdict-named=verdict_named was-accepted=was_accepted was-handed=was_handed
    was-refused=was_refused well-named=well_named went-by=went_by wide-replicate=wide_replicate
    wide-set=wide_set with-bonds=with_bonds with-cash=with_cash with-day=with_day
    with-kept=with_kept with-lending=with_lending with-loan=with_loan with-pledge=with_pledge
    with-preset=with_preset with-price=with_price with-quota=with_quota with-row=with_told_row
    within-day=within_day within-most=within_most worth-refused=worth_refused
    worth-rules=worth_rules worthOf=worth_of zeros-sum=zeros_sum
""".split())

WORD = re.compile(r"""("(?:[^"\\\n]|\\.)*")|([A-Za-z_][\w'\u00b7-]*)""")


def respell(line, comment):
    """A line with its names respelled, up to its comment."""
    code, mark, rest = line.partition(comment)
    return WORD.sub(lambda m: m[1] or NAMES.get(m[2], m[2]), code) + mark + rest


def main():
    top = sys.argv[1] if len(sys.argv) > 1 else "."
    for folder, inner, files in os.walk(os.path.join(top, "crates")):
        inner[:] = [name for name in inner if name != "out"]
        for name in files:
            comment = {".rt": "//", ".antt": "-- "}.get(os.path.splitext(name)[1])
            if comment is None:
                continue
            path = os.path.join(folder, name)
            with open(path, encoding="utf-8") as file:
                old = file.read()
            new = "\n".join(respell(line, comment) for line in old.split("\n"))
            if new != old:
                with open(path, "w", encoding="utf-8") as file:
                    file.write(new)


if __name__ == "__main__":
    main()
