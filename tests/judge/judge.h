/* A judge of the clearing: document 01 ("What the clearing build is and its
 * rules") with CR 5, 6, 7, 8 and 11 of 02, read a second time, in plain C, apart
 * from the crates. */
#ifndef JUDGE_H
#define JUDGE_H

#include <stdbool.h>
#include <stddef.h>
#include <stdint.h>

enum {
    JUDGE_MAX_YEARS = 8,
    JUDGE_MAX_DELIVERY_YEARS = 4,
    JUDGE_MAX_POTS = 4,
    JUDGE_MAX_TECHNOLOGIES = 32,
    JUDGE_MAX_APPLICATIONS = 64,
    JUDGE_MAX_BIDS = 256,
    JUDGE_MAX_FILE = 7898,
    JUDGE_MAX_REMAINING = 20, /* in a tie; more are outcome 2 */
    JUDGE_WIDE = 11,          /* from so many on, which CR 7 took in */
    JUDGE_PENCE_TO_THE_POUND = 100,
    JUDGE_WITH_CAPS = 32768,  /* added to the pots count of a file with caps */
    JUDGE_WITH_DRAWN = 16384, /* added as well where it has drawn numbers too */
    JUDGE_MAX_CAP = 20000000,
    /* 6 + P(2 + 4D + 8Y) + 10N + 2B at the limits */
    JUDGE_MAX_RESULT = 6 + 4 * (2 + 4 * 4 + 8 * 8) + 10 * 64 + 2 * 256,
    /* enough for the longest listing */
    JUDGE_LISTING_CAP = 32768
};

#define JUDGE_NO_CAP 4294967295u
#define JUDGE_MAX_DRAWN 4294967295u

/* 0 when cleared: exactly the result's bytes are written, those after stay.
 * Otherwise refusal number * 2^32 + offset, and result is untouched. */
uint64_t judge_clear(const uint8_t *file, uint64_t file_len,
                     uint8_t *result, uint64_t result_len);

/* The length the result needs, or 0 for a file refused by 1 to 11. */
uint64_t judge_result_len(const uint8_t *file, uint64_t file_len);

/* Writes the listing (not 0-ended) and answers its length, or -1 if cap is
 * too small for it (what then stands in out is not promised). */
int judge_listing(const uint8_t *file, uint64_t file_len, char *out, size_t cap);

/* Value of one bid in one year, in whole pence; every argument at its scale in
 * the file, price already capped. */
uint64_t judge_value(uint32_t price, uint32_t reference, uint32_t load_factor,
                     uint32_t hours, uint32_t capacity, uint32_t tlm, uint32_t rqm);

#ifdef JUDGE_COUNT
/* What happened so far while judge_counting was set.  Only the clause that
 * decided counts. */
extern bool judge_counting;

#define JUDGE_CLAUSES(X) \
    X(3, year_days) X(3, year_kind) X(3, year_tlm) X(3, year_0_not_delivery) \
    X(3, delivery_after_valuation_only) X(3, fifth_delivery_year) \
    X(4, budget_above) X(4, cap_above) \
    X(5, pot_not_in_file) X(5, rqm_above) X(5, load_factor_above) X(5, reference_above) \
    X(5, administrative_below_10) X(5, administrative_above) \
    X(5, administrative_not_multiple) X(5, administrative_not_0) \
    X(6, technology_not_in_file) X(6, application_year) X(6, application_days_0) \
    X(6, application_days_above) X(6, application_capacity_0) \
    X(6, application_capacity_above) X(6, draw_used) \
    X(7, application_not_in_file) X(7, bid_year) X(7, bid_days_0) X(7, bid_days_above) \
    X(7, bid_capacity_0) X(7, bid_capacity_above) X(7, bid_year_earlier) \
    X(7, bid_more_days) X(7, bid_price_above) \
    X(8, price_of_earlier_bid) \
    X(9, eleventh_bid) X(9, fourth_bid_in_year) \
    X(10, bytes_after) \
    X(11, lowest_not_multiple)

#define JUDGE_CLAUSE_NAME(number, name) JUDGE_CLAUSE_##name,
enum judge_clause { JUDGE_CLAUSES(JUDGE_CLAUSE_NAME) JUDGE_CLAUSE_COUNT };

/* What was held against the budgets and the cap: all at administrative prices,
 * one bid, bids tied, all that were taken or those chosen, or one of these
 * alone. */
enum judge_tested {
    JUDGE_FIRST_TEST,
    JUDGE_ONE_BID,
    JUDGE_TIED_BIDS,
    JUDGE_ONE_OF_TIED,
    JUDGE_TESTED_COUNT
};

struct judge_counts {
    uint64_t accepted;
    uint64_t refusal[13];
    uint64_t clause[JUDGE_CLAUSE_COUNT];
    uint64_t cut_count[5], cut_record[5];      /* refusal 1 by section */
    uint64_t count_low[5], count_high[5];      /* refusal 2 by section */
    uint64_t pots_count_0_with_caps;           /* refusal 2 for 32,768 and no more */
    uint64_t pots_count_high_with_caps;
    uint64_t pots_count_with_16384;            /* refusal 2 for 16,384 and a number of pots */
    uint64_t pots_count_0_with_drawn_numbers;  /* refusal 2 for 49,152 and no more */
    uint64_t pots_count_high_with_drawn_numbers;
    uint64_t cut_in_a_drawn_number;            /* refusal 1 */
    uint64_t cap_above_beside_a_drawn_number;  /* refusal 4 */
    uint64_t outcome[3];
    uint64_t outcome_of_empty_pot;
    uint64_t sealed_reason[8], automatic_reason[9];
    uint64_t bid_65534;                        /* of an application */
    uint64_t auction_without_a_bid;            /* outcome 1 of a pot where all are silent */
    uint64_t constrained_by_the_silent;        /* without them the first test would hold */
    uint64_t silent_won_in_outcome_0;
    uint64_t silent_beside_a_winner;           /* in outcome 1 */
    uint64_t silent_would_fit;                 /* as a last bid at its administrative price */
    uint64_t silent_in_outcome_2;
    uint64_t further_looks[4];                 /* looks of one chain; 3 = 3 or more */
    uint64_t chain_won_at[4];                  /* 0: none won */
    uint64_t chain_ended;                      /* no later bid of that application and year */
    uint64_t chain_broken_same_price;          /* its next bid is tied with another */
    uint64_t chain_broken_other_application;   /* another's bid in between */
    uint64_t chain_broken_other_year;          /* its own bid of another year in between */
    uint64_t ties_that_fit[65];                /* by taken */
    uint64_t tie[65][65];                      /* by taken, remaining */
    uint64_t tie_across_years;
    uint64_t tie_left_a_taken_year_open;       /* of the years taken, one stayed open */
    uint64_t tie_equal_totals;                 /* the largest number decided */
    uint64_t tie_pounds_choose_another;        /* values of whole pounds choose otherwise */
    uint64_t tie_pounds_prefer_another;        /* though the one chosen fits in pounds too */
    uint64_t tie_none_remain;
    uint64_t tie_with_earlier_winners;
    uint64_t tie_beside_a_lower_silent_draw;   /* than any taken */
    uint64_t zero_cost_winner;                 /* outcome 1 */
    uint64_t capped_winner;                    /* paid less than the clearing price */
    uint64_t capped_winner_other_cap_later;    /* and a later year's price differs */
    uint64_t revalued_winner;                  /* clearing price of a year raised */
    uint64_t won_in_later_year;                /* than the application's */
    uint64_t won_after_turned_down;
    uint64_t budget_0_administrative, budget_0_auction;
    uint64_t budget_equals_total_administrative, budget_equals_total_auction;
    /* By what was tested: it did not fit, for less than a pound in each year
     * that exceeds its budget, or for one penny; it did fit, but would not with
     * each value rounded up to a whole pound. */
    uint64_t over_by_less_than_a_pound[JUDGE_TESTED_COUNT];
    uint64_t over_by_one_penny[JUDGE_TESTED_COUNT];
    uint64_t fits_but_not_in_pounds[JUDGE_TESTED_COUNT];
    uint64_t closed_some_but_not_all;          /* pots ending with open and closed years */
    uint64_t accepted_with_caps;
    /* Of the pots of such files: */
    uint64_t pot_without_a_cap;
    uint64_t cap_0_administrative, cap_0_auction;
    uint64_t cap_20000000;
    uint64_t cap_reached_administrative;       /* by all, and equal fits */
    uint64_t cap_reached_auction;              /* by the winners at the end */
    /* By what was tested in a pot with a cap: why it did not fit; or it just
     * fits the cap, or exceeds it by a hundredth of a MW. */
    uint64_t fails_for_the_cap_alone[JUDGE_TESTED_COUNT];
    uint64_t fails_for_money_alone[JUDGE_TESTED_COUNT];
    uint64_t fails_for_both[JUDGE_TESTED_COUNT];
    uint64_t equals_the_cap[JUDGE_TESTED_COUNT];
    uint64_t over_the_cap_by_one[JUDGE_TESTED_COUNT];
    /* One bid turned down for the cap alone: it is larger than the cap, or it is
     * not but does not fit beside the winners, which may have reached the cap
     * before: that closes nothing. */
    uint64_t larger_than_the_cap;
    uint64_t within_the_cap_but_not_beside_winners;
    uint64_t looked_at_under_a_reached_cap;
    uint64_t smaller_won_later;                /* of another application */
    uint64_t chain_won_under_the_cap;          /* its first bid turned down for the cap alone */
    uint64_t winners_within_the_cap_by_bids;   /* their applications together exceed it */
    uint64_t tie_narrowed_by_the_cap;          /* without it more than 20 would remain */
    uint64_t tie_dearer_exceeds_the_cap;       /* than the one chosen, and money would do */
    uint64_t tie_equal_exceeds_the_cap;        /* of a larger number */
    uint64_t tie_money_before_capacity;        /* one of more capacity fits, for less */
    uint64_t accepted_with_drawn_numbers;
    /* Of the pots of such files: */
    uint64_t drawn_outcome[3];
    uint64_t tie_fits_in_a_drawn_file;
    uint64_t tie_fits_before_a_draw;           /* from two or more */
    uint64_t one_bid_turned_down_before_a_draw;
    uint64_t draw_where_none_remain;
    /* Ties that do not fit, by m: one kept, two, three or more; and the most there
     * can be, half of 10 and half of 20. */
    uint64_t draw_from[4];
    uint64_t draw_from_252, draw_from_184756;
    /* Of the draws from two or more: */
    uint64_t draw_of_place_0, draw_of_the_last_place, draw_of_a_place_between;
    uint64_t draw_chooses_as_01;
    uint64_t draw_chooses_another_than_01;
    uint64_t draw_by_number_0, draw_by_the_greatest_number; /* as the file gives it */
    uint64_t draw_beyond_m;                    /* the number is m or more */
    uint64_t draw_by_a_number_divided;         /* not the file's any more */
    uint64_t draw_undivided_chooses_another;
    uint64_t draw_by_a_number_used_up;         /* it was above 0 and now is 0 */
    uint64_t draw_third_of_a_pot;
    uint64_t draw_after_one_kept;              /* which left the number as it was */
    uint64_t draw_beside_dropped_bids;
    uint64_t draw_across_years;
    uint64_t draw_with_earlier_winners;
    uint64_t draw_at_no_cost_in_the_last_year; /* of all that are best */
    uint64_t draw_under_a_cap;
    uint64_t draws_in_two_pots;                /* by different numbers */
    /* Best combinations that could be extended, so are not kept; were they kept,
     * another would be chosen; and equal totals, but the extension does not fit. */
    uint64_t draw_best_not_kept;
    uint64_t draw_best_not_kept_would_move_it;
    uint64_t draw_kept_for_the_cap_alone;
    uint64_t draw_kept_for_money_alone;
    uint64_t draw_01_chooses_one_not_last_kept;
    /* Wide ties: 11 to 20 remain, which are chosen from. */
    uint64_t wide_tie, wide_tie_of_15_or_more, wide_tie_of_20;
    uint64_t wide_tie_of_21_or_more_taken;     /* of which some were dropped */
    uint64_t wide_tie_across_years;
    uint64_t wide_tie_with_earlier_winners;
    uint64_t wide_tie_but_for_the_cap;         /* all that remain would fit */
    uint64_t wide_tie_but_for_money;           /* and stay within a cap */
    uint64_t wide_tie_of_all_alike;            /* in year, cost and capacity */
    uint64_t wide_tie_of_all_different;        /* in the last year's cost */
    uint64_t wide_tie_some_free_at_last;       /* and some not: the last year's cost */
    uint64_t wide_tie_by_01;                   /* no drawn number */
    uint64_t wide_tie_equal_totals;            /* the largest number decided */
    uint64_t wide_draw;                        /* from two or more */
    uint64_t wide_draw_from_more_than_252;
    uint64_t wide_draw_best_not_kept;
    uint64_t wide_draw_by_a_number_divided;
    uint64_t wide_draw_of_a_place_between;
    /* And ties too wide: more than 20 remain. */
    uint64_t too_wide_across_years;
    uint64_t too_wide_with_earlier_winners;
    uint64_t too_wide_beside_dropped_bids;
};

extern struct judge_counts judge_counts;
#endif

#endif
