#include "occurrences.h"

#include <stdio.h>

#ifndef JUDGE_COUNT
#error "occurrences.c needs -DJUDGE_COUNT"
#endif

static unsigned wrong;
static struct judge_counts rounds, all;

static void line(const char *name, uint64_t of_rounds, uint64_t of_damaged, const char *verdict)
{
    printf("  %-46s %10llu %10llu%s\n", name, (unsigned long long)of_rounds,
           (unsigned long long)of_damaged, verdict);
}

static void must_occur(const char *name, uint64_t of_rounds, uint64_t of_all)
{
    wrong += of_all == 0;
    line(name, of_rounds, of_all - of_rounds, of_all == 0 ? "   NEVER OCCURRED" : "");
}

static void must_not_occur(const char *name, uint64_t of_rounds, uint64_t of_all)
{
    wrong += of_all != 0;
    line(name, of_rounds, of_all - of_rounds, of_all != 0 ? "   IMPOSSIBLE" : "   (cannot occur)");
}

#define OCCURS(field) must_occur(#field, rounds.field, all.field)

static void occurs(const char *format, unsigned n, uint64_t of_rounds, uint64_t of_all)
{
    char name[64];
    snprintf(name, sizeof name, format, n);
    must_occur(name, of_rounds, of_all);
}

static void cannot_occur(const char *format, unsigned n, uint64_t of_rounds, uint64_t of_all)
{
    char name[64];
    snprintf(name, sizeof name, format, n);
    must_not_occur(name, of_rounds, of_all);
}

static void occurs_in_section(const char *format, unsigned section, uint64_t of_rounds,
                              uint64_t of_all)
{
    static const char *const sections[] = { "years", "pots", "technologies", "applications", "bids" };
    char name[64];
    snprintf(name, sizeof name, format, sections[section]);
    must_occur(name, of_rounds, of_all);
}

static void print_refusals(void)
{
    printf("files\n");
    OCCURS(accepted);
    for (unsigned n = 1; n <= 11; n++)
        occurs("refusal %u", n, rounds.refusal[n], all.refusal[n]);
    occurs("refusal %u (results lent too short)", 12, rounds.refusal[12], all.refusal[12]);
    printf("refusals 1 and 2 by place\n");
    for (unsigned s = 0; s < 5; s++) {
        occurs_in_section("1: count of %s", s, rounds.cut_count[s], all.cut_count[s]);
        occurs_in_section("1: record of %s", s, rounds.cut_record[s], all.cut_record[s]);
        occurs_in_section("2: too many %s", s, rounds.count_high[s], all.count_high[s]);
        if (s < 3)
            occurs_in_section("2: too few %s", s, rounds.count_low[s], all.count_low[s]);
    }
    OCCURS(pots_count_0_with_caps);
    OCCURS(pots_count_high_with_caps);
    OCCURS(pots_count_with_16384);
    OCCURS(pots_count_0_with_drawn_numbers);
    OCCURS(pots_count_high_with_drawn_numbers);
    OCCURS(cut_in_a_drawn_number);
    OCCURS(cap_above_beside_a_drawn_number);
    printf("refusals 3 to 11 by clause\n");
#define CLAUSE_LINE(number, name) \
    must_occur(#number ": " #name, rounds.clause[JUDGE_CLAUSE_##name], all.clause[JUDGE_CLAUSE_##name]);
    JUDGE_CLAUSES(CLAUSE_LINE)
}

static void occurs_in_tests(const char *what, const uint64_t *of_rounds, const uint64_t *of_all)
{
    static const char *const tested[] = { "first test", "one bid", "tied bids", "one of tied bids" };
    for (unsigned t = 0; t < JUDGE_TESTED_COUNT; t++) {
        char name[64];
        snprintf(name, sizeof name, "%s: %s", tested[t], what);
        must_occur(name, of_rounds[t], of_all[t]);
    }
}

static void print_pennies(void)
{
    printf("pennies from a budget\n");
    occurs_in_tests("over by less than a pound", rounds.over_by_less_than_a_pound,
                    all.over_by_less_than_a_pound);
    occurs_in_tests("over by one penny", rounds.over_by_one_penny, all.over_by_one_penny);
    occurs_in_tests("fits, in pounds it would not", rounds.fits_but_not_in_pounds,
                    all.fits_but_not_in_pounds);
    OCCURS(tie_pounds_choose_another);
    OCCURS(tie_pounds_prefer_another);
}

static void print_caps(void)
{
    printf("caps\n");
    OCCURS(accepted_with_caps);
    OCCURS(pot_without_a_cap);
    OCCURS(cap_0_administrative);
    OCCURS(cap_0_auction);
    OCCURS(cap_20000000);
    OCCURS(cap_reached_administrative);
    OCCURS(cap_reached_auction);
    occurs_in_tests("fails for the cap alone", rounds.fails_for_the_cap_alone,
                    all.fails_for_the_cap_alone);
    occurs_in_tests("fails for money alone", rounds.fails_for_money_alone,
                    all.fails_for_money_alone);
    occurs_in_tests("fails for both", rounds.fails_for_both, all.fails_for_both);
    occurs_in_tests("equals the cap", rounds.equals_the_cap, all.equals_the_cap);
    occurs_in_tests("over the cap by 0.01 MW", rounds.over_the_cap_by_one,
                    all.over_the_cap_by_one);
    OCCURS(larger_than_the_cap);
    OCCURS(within_the_cap_but_not_beside_winners);
    OCCURS(looked_at_under_a_reached_cap);
    OCCURS(smaller_won_later);
    OCCURS(chain_won_under_the_cap);
    OCCURS(winners_within_the_cap_by_bids);
    OCCURS(tie_narrowed_by_the_cap);
    OCCURS(tie_dearer_exceeds_the_cap);
    OCCURS(tie_equal_exceeds_the_cap);
    OCCURS(tie_money_before_capacity);
}

static void print_places(void)
{
    printf("draws from two combinations or more\n");
    OCCURS(draw_of_place_0);
    OCCURS(draw_of_the_last_place);
    OCCURS(draw_of_a_place_between);
    OCCURS(draw_chooses_as_01);
    OCCURS(draw_chooses_another_than_01);
    OCCURS(draw_by_number_0);
    OCCURS(draw_by_the_greatest_number);
    OCCURS(draw_beyond_m);
    OCCURS(draw_by_a_number_divided);
    OCCURS(draw_undivided_chooses_another);
    OCCURS(draw_by_a_number_used_up);
    OCCURS(draw_third_of_a_pot);
    OCCURS(draw_after_one_kept);
    OCCURS(draw_beside_dropped_bids);
    OCCURS(draw_across_years);
    OCCURS(draw_with_earlier_winners);
    OCCURS(draw_at_no_cost_in_the_last_year);
    OCCURS(draw_under_a_cap);
    OCCURS(draws_in_two_pots);
    OCCURS(draw_best_not_kept_would_move_it);
    OCCURS(draw_kept_for_the_cap_alone);
    OCCURS(draw_kept_for_money_alone);
}

static void print_draws(void)
{
    printf("drawn numbers\n");
    OCCURS(accepted_with_drawn_numbers);
    for (unsigned n = 0; n < 3; n++)
        occurs("outcome %u in a drawn file", n, rounds.drawn_outcome[n], all.drawn_outcome[n]);
    OCCURS(tie_fits_in_a_drawn_file);
    OCCURS(tie_fits_before_a_draw);
    OCCURS(one_bid_turned_down_before_a_draw);
    OCCURS(draw_where_none_remain);
    /* the largest of the best cannot be extended, so that one at least is kept */
    must_not_occur("draw from none", rounds.draw_from[0], all.draw_from[0]);
    occurs("draw from %u", 1, rounds.draw_from[1], all.draw_from[1]);
    occurs("draw from %u", 2, rounds.draw_from[2], all.draw_from[2]);
    occurs("draw from %u or more", 3, rounds.draw_from[3], all.draw_from[3]);
    OCCURS(draw_from_252);
    OCCURS(draw_from_184756);
    OCCURS(draw_best_not_kept);
    must_not_occur("01 chooses one that is not the last kept", rounds.draw_01_chooses_one_not_last_kept,
                   all.draw_01_chooses_one_not_last_kept);
    print_places();
}

static void print_outcomes(void)
{
    printf("pots\n");
    for (unsigned n = 0; n < 3; n++)
        occurs("outcome %u", n, rounds.outcome[n], all.outcome[n]);
    must_occur("outcome 0 of a pot with no application", rounds.outcome_of_empty_pot,
               all.outcome_of_empty_pot);
    OCCURS(budget_0_administrative);
    OCCURS(budget_0_auction);
    OCCURS(budget_equals_total_administrative);
    OCCURS(budget_equals_total_auction);
    OCCURS(closed_some_but_not_all);
    printf("winners of auctions\n");
    OCCURS(zero_cost_winner);
    OCCURS(capped_winner);
    OCCURS(capped_winner_other_cap_later);
    OCCURS(revalued_winner);
    OCCURS(won_in_later_year);
    OCCURS(won_after_turned_down);
}

static void print_reasons(void)
{
    printf("reasons\n");
    must_not_occur("sealed bid, reason 0", rounds.sealed_reason[0], all.sealed_reason[0]);
    for (unsigned n = 1; n <= 7; n++)
        occurs("sealed bid, reason %u", n, rounds.sealed_reason[n], all.sealed_reason[n]);
    occurs("automatic reason %u (had sealed bids)", 0, rounds.automatic_reason[0],
           all.automatic_reason[0]);
    /* a silent application has no bid that could win or be turned down */
    for (unsigned n = 1; n <= 5; n++)
        cannot_occur("automatic reason %u", n, rounds.automatic_reason[n], all.automatic_reason[n]);
    for (unsigned n = 6; n <= 8; n++)
        occurs("automatic reason %u", n, rounds.automatic_reason[n], all.automatic_reason[n]);
    cannot_occur("bid %u of an application", 65534, rounds.bid_65534, all.bid_65534);
}

static void print_silent(void)
{
    printf("applications without a sealed bid\n");
    OCCURS(silent_won_in_outcome_0);
    OCCURS(silent_beside_a_winner);
    OCCURS(silent_would_fit);
    OCCURS(silent_in_outcome_2);
    OCCURS(auction_without_a_bid);
    OCCURS(constrained_by_the_silent);
    OCCURS(tie_beside_a_lower_silent_draw);
}

static void print_chains(void)
{
    printf("chains (a bid turned down alone)\n");
    for (unsigned n = 0; n <= 2; n++)
        occurs("%u further looks", n, rounds.further_looks[n], all.further_looks[n]);
    /* an application has three bids in a year at most */
    must_not_occur("3 or more further looks", rounds.further_looks[3], all.further_looks[3]);
    occurs("won at further look %u (0: none won)", 0, rounds.chain_won_at[0], all.chain_won_at[0]);
    for (unsigned n = 1; n <= 2; n++)
        occurs("won at further look %u", n, rounds.chain_won_at[n], all.chain_won_at[n]);
    OCCURS(chain_ended);
    OCCURS(chain_broken_same_price);
    OCCURS(chain_broken_other_application);
    OCCURS(chain_broken_other_year);
}

static uint64_t ties_in(const struct judge_counts *counts, unsigned taken_low, unsigned taken_high,
                        unsigned remaining_low, unsigned remaining_high)
{
    uint64_t sum = 0;
    for (unsigned t = taken_low; t <= taken_high; t++)
        for (unsigned r = remaining_low; r <= remaining_high; r++)
            sum += counts->tie[t][r];
    return sum;
}

/* So many taken, or remaining. */
struct span {
    unsigned least, most;
};

static void heading_of(struct span span, char *heading, size_t size)
{
    if (span.most == 64)
        snprintf(heading, size, "%u+", span.least);
    else if (span.most > span.least)
        snprintf(heading, size, "%u-%u", span.least, span.most);
    else
        snprintf(heading, size, "%u", span.least);
}

static void print_tie_widths(void)
{
    static const struct span rows[] = { { 2, 2 }, { 3, 3 }, { 4, 4 }, { 5, 5 }, { 6, 6 }, { 7, 7 }, { 8, 8 }, { 9, 9 },
                                        { 10, 10 }, { 11, 11 }, { 12, 12 }, { 13, 14 }, { 15, 20 }, { 21, 21 }, { 22, 64 } };
    static const struct span columns[] = { { 0, 0 }, { 1, 1 }, { 2, 2 }, { 3, 3 }, { 4, 4 }, { 5, 5 }, { 6, 6 }, { 7, 7 },
                                           { 8, 8 }, { 9, 9 }, { 10, 10 }, { 11, 14 }, { 15, 20 }, { 21, 64 } };
    enum { ROWS = sizeof rows / sizeof *rows, COLUMNS = sizeof columns / sizeof *columns };
    char heading[32];
    printf("ties, rounds and damaged together; a row for each number taken,\n"
           "a column for each number remaining, 'fit' where all fitted together\n  taken   fit");
    for (unsigned c = 0; c < COLUMNS; c++) {
        heading_of(columns[c], heading, sizeof heading);
        printf(" %6s", heading);
    }
    printf("\n");
    for (unsigned r = 0; r < ROWS; r++) {
        uint64_t fit = 0;
        for (unsigned t = rows[r].least; t <= rows[r].most; t++)
            fit += all.ties_that_fit[t];
        heading_of(rows[r], heading, sizeof heading);
        printf("  %5s %5llu", heading, (unsigned long long)fit);
        for (unsigned c = 0; c < COLUMNS; c++)
            printf(" %6llu", (unsigned long long)ties_in(&all, rows[r].least, rows[r].most, columns[c].least, columns[c].most));
        printf("\n");
    }
}

static void print_wide_ties(void)
{
    printf("ties of 11 to 20 that are chosen from, and wider ones\n");
    OCCURS(wide_tie);
    OCCURS(wide_tie_of_15_or_more);
    OCCURS(wide_tie_of_20);
    OCCURS(wide_tie_of_21_or_more_taken);
    OCCURS(wide_tie_across_years);
    OCCURS(wide_tie_with_earlier_winners);
    OCCURS(wide_tie_but_for_the_cap);
    OCCURS(wide_tie_but_for_money);
    OCCURS(wide_tie_of_all_alike);
    OCCURS(wide_tie_of_all_different);
    OCCURS(wide_tie_some_free_at_last);
    OCCURS(wide_tie_by_01);
    OCCURS(wide_tie_equal_totals);
    OCCURS(wide_draw);
    OCCURS(wide_draw_from_more_than_252);
    OCCURS(wide_draw_best_not_kept);
    OCCURS(wide_draw_by_a_number_divided);
    OCCURS(wide_draw_of_a_place_between);
    OCCURS(too_wide_across_years);
    OCCURS(too_wide_with_earlier_winners);
    OCCURS(too_wide_beside_dropped_bids);
}

static void print_ties(void)
{
    enum { MOST = JUDGE_MAX_REMAINING };
    print_tie_widths();
    for (unsigned t = 2; t <= 14; t++)
        occurs("%u taken in a tie that does not fit", t, ties_in(&rounds, t, t, 0, 64),
               ties_in(&all, t, t, 0, 64));
    must_occur("15 to 20 taken", ties_in(&rounds, 15, MOST, 0, 64), ties_in(&all, 15, MOST, 0, 64));
    for (unsigned t = MOST + 1; t <= MOST + 2; t++)
        occurs("%u taken in a tie that does not fit", t, ties_in(&rounds, t, t, 0, 64),
               ties_in(&all, t, t, 0, 64));
    occurs("%u or more taken", MOST + 3, ties_in(&rounds, MOST + 3, 64, 0, 64), ties_in(&all, MOST + 3, 64, 0, 64));
    for (unsigned r = 0; r <= 14; r++)
        occurs("%u remaining", r, ties_in(&rounds, 2, 64, r, r), ties_in(&all, 2, 64, r, r));
    must_occur("15 to 19 remaining", ties_in(&rounds, 2, 64, 15, MOST - 1), ties_in(&all, 2, 64, 15, MOST - 1));
    for (unsigned r = MOST; r <= MOST + 2; r++)
        occurs("%u remaining", r, ties_in(&rounds, 2, 64, r, r), ties_in(&all, 2, 64, r, r));
    occurs("%u or more remaining", MOST + 3, ties_in(&rounds, 2, 64, MOST + 3, 64), ties_in(&all, 2, 64, MOST + 3, 64));
    OCCURS(tie_across_years);
    OCCURS(tie_left_a_taken_year_open);
    OCCURS(tie_equal_totals);
    OCCURS(tie_none_remain);
    OCCURS(tie_with_earlier_winners);
    print_wide_ties();
}

unsigned print_occurrences(const struct judge_counts *of_rounds, const struct judge_counts *of_all)
{
    wrong = 0;
    rounds = *of_rounds;
    all = *of_all;
    printf("  %-46s %10s %10s\n", "occurred", "in rounds", "in others");
    print_refusals();
    print_outcomes();
    print_pennies();
    print_caps();
    print_draws();
    print_reasons();
    print_silent();
    print_chains();
    print_ties();
    return wrong;
}
