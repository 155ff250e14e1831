/* bench: the time that a round takes in the library beside the judge, which is plain C compiled with optimisation for the same processor. Six
 * files: a full round, a full single pot, ties of 10 in every step, a full round refused for its last bid, the full round with caps, and ties of
 * 10 all alike that are drawn. Then five of ties of 20, for which the judge takes seconds.
 * bench --write FOLDER: writes the files there, and measures nothing. */
#include "gustmirror.h"
#include "judge.h"
#include "make.h"

#include <stdio.h>
#include <string.h>
#include <time.h>

enum { YEARS = 8, DELIVERY_YEARS = 4, TECHNOLOGIES = 32, APPLICATIONS = 64, MOST_POTS = 4, BATCHES = 100, RUNS_OF_WIDE_TIES = 5 };
/* the longest file but for drawn numbers, of four bytes a pot */
enum { LONGEST_WITH_CAPS = JUDGE_MAX_FILE - 4 * MOST_POTS };
#define BUDGET_LIMIT 1000000000000u
#define NANOSECONDS_OF_A_BATCH 2000000u

/* ---- round files ---- */

struct round_file {
    uint8_t bytes[MAKE_CAPACITY];
    size_t len, budgets, last_bid;
};

static void add(struct round_file *f, unsigned bytes, uint64_t n)
{
    for (unsigned i = 0; i < bytes; i++)
        f->bytes[f->len++] = (uint8_t)(n >> (8 * i));
}

static void set(struct round_file *f, size_t at, unsigned bytes, uint64_t n)
{
    for (unsigned i = 0; i < bytes; i++)
        f->bytes[at + i] = (uint8_t)(n >> (8 * i));
}

static uint64_t get(const uint8_t *p, unsigned bytes)
{
    uint64_t n = 0;
    for (unsigned i = 0; i < bytes; i++)
        n |= (uint64_t)p[i] << (8 * i);
    return n;
}

static void add_application(struct round_file *f, unsigned technology, unsigned draw, uint32_t capacity)
{
    add(f, 2, technology);
    add(f, 2, 0);
    add(f, 2, 365);
    add(f, 2, draw);
    add(f, 4, capacity);
    add(f, 8, 0);
}

static void add_bid(struct round_file *f, unsigned application, unsigned year, uint32_t capacity, uint32_t price)
{
    f->last_bid = f->len;
    add(f, 2, application);
    add(f, 2, year);
    add(f, 2, 365);
    add(f, 4, capacity);
    add(f, 4, price);
}

/* Eight years of which four are of delivery, budgets at their limit, and 32 technologies dealt over the pots: administrative prices about
 * £120, reference prices about £45, load factors of wind and sun. */
static void start(struct round_file *f, unsigned pots, struct rng *rng)
{
    f->len = 0;
    add(f, 2, YEARS);
    for (unsigned y = 0; y < YEARS; y++) {
        add(f, 2, y % 4 == 2 ? 366 : 365);
        add(f, 2, y < DELIVERY_YEARS);
        add(f, 2, 90);
    }
    add(f, 2, pots);
    f->budgets = f->len;
    for (unsigned i = 0; i < pots * YEARS; i++)
        add(f, 8, BUDGET_LIMIT);
    add(f, 2, TECHNOLOGIES);
    for (unsigned t = 0; t < TECHNOLOGIES; t++) {
        add(f, 2, t % pots);
        add(f, 2, 10000);
        for (unsigned y = 0; y < YEARS; y++) {
            add(f, 4, y < DELIVERY_YEARS ? 120000 - 1000 * y : 0);
            add(f, 4, rng == NULL ? 45000 : 40000 + (uint32_t)rng_below(rng, 10000));
            add(f, 2, rng == NULL ? 4000 : 2500 + (unsigned)rng_below(rng, 2500));
        }
    }
}

/* What is paid at administrative prices, which the judge tells in pence where every budget is at its limit, times so many hundredths. */
static void set_budgets(struct round_file *f, unsigned pots, unsigned hundredths)
{
    uint8_t result[JUDGE_MAX_RESULT];
    judge_clear(f->bytes, f->len, result, sizeof result);
    for (unsigned p = 0; p < pots; p++)
        for (unsigned y = 0; y < YEARS; y++) {
            size_t total = 2 + p * (2 + 4 * DELIVERY_YEARS + 8 * YEARS) + 2 + 4 * DELIVERY_YEARS + 8 * y;
            uint64_t pounds = get(result + total, 8) / JUDGE_PENCE_TO_THE_POUND;
            set(f, f->budgets + 8 * (p * YEARS + y), 8, pounds / 100 * hundredths);
        }
}

/* 64 applications of 20 to 300 MW, one bid of each in each delivery year, and budgets that pay for part of them. */
static void make_full(struct round_file *f, unsigned pots)
{
    struct rng rng = { 7 };
    uint32_t capacity[APPLICATIONS];
    start(f, pots, &rng);
    add(f, 2, APPLICATIONS);
    for (unsigned i = 0; i < APPLICATIONS; i++) {
        capacity[i] = 2000 + (uint32_t)rng_below(&rng, 28000);
        add_application(f, i % TECHNOLOGIES, APPLICATIONS - i, capacity[i]);
    }
    add(f, 2, APPLICATIONS * DELIVERY_YEARS);
    for (unsigned i = 0; i < APPLICATIONS; i++)
        for (unsigned d = 0; d < DELIVERY_YEARS; d++)
            add_bid(f, i, d, capacity[i], 10 * (7000 + 100 * d + (uint32_t)rng_below(&rng, 3500)));
    set_budgets(f, pots, 40);
}

/* Four pots of 16 applications. In each delivery year ten bids are tied, each fits alone, any two fit and no three do: two win, the year closes,
 * and the other eight are tied in the next year with two more. */
enum { TIED = 10, WINNERS_OF_A_TIE = 2 };

static unsigned first_tie(unsigned i)
{
    unsigned in_pot = i / MOST_POTS;
    return in_pot < TIED ? 0 : (in_pot - TIED) / WINNERS_OF_A_TIE + 1;
}

static void set_budgets_of_ties(struct round_file *f)
{
    for (unsigned y = 0; y < YEARS; y++) {
        unsigned last = y < DELIVERY_YEARS ? y : DELIVERY_YEARS - 1;
        uint64_t one = judge_value(100000, 45000, 4000, 24 * 365, 1000, 90, 10000) / JUDGE_PENCE_TO_THE_POUND;
        for (unsigned p = 0; p < MOST_POTS; p++)
            set(f, f->budgets + 8 * (p * YEARS + y), 8, one * (2 * WINNERS_OF_A_TIE * (last + 1) + 1) / 2);
    }
}

static void make_ties(struct round_file *f)
{
    unsigned bids = 0;
    start(f, MOST_POTS, NULL);
    add(f, 2, APPLICATIONS);
    for (unsigned i = 0; i < APPLICATIONS; i++) {
        add_application(f, i % MOST_POTS, 100 - i, 1000 + i / MOST_POTS);
        bids += DELIVERY_YEARS - first_tie(i);
    }
    add(f, 2, bids);
    for (unsigned i = 0; i < APPLICATIONS; i++)
        for (unsigned d = first_tie(i); d < DELIVERY_YEARS; d++)
            add_bid(f, i, d, 1000 + i / MOST_POTS, 100000 + 10 * d);
    set_budgets_of_ties(f);
}

/* Two pots of 25 applications, all alike. In each delivery year ten bids are tied of which any five fit and no six do: 252 combinations to draw
 * from. Five win, the year closes, and the other five are tied in the next year with five more. Winners are applications, so that 64 have room for
 * no sixteen such ties; 252 four times over is below 2^32, so that a number lasts for all ties of its pot. */
enum { DRAWN_POTS = 2, WINNERS_OF_A_DRAW = TIED / 2, DRAWN_APPLICATIONS = DRAWN_POTS * (TIED + (DELIVERY_YEARS - 1) * WINNERS_OF_A_DRAW) };
#define DRAWN_NUMBER 4000000000u

static unsigned first_draw(unsigned i)
{
    unsigned in_pot = i / DRAWN_POTS;
    return in_pot < TIED ? 0 : (in_pot - TIED) / WINNERS_OF_A_DRAW + 1;
}

/* Five of each delivery year so far, at the price of the last of them or less, and not six: half a bid more than five. */
static void add_pots_of_draws(struct round_file *f)
{
    uint64_t one = judge_value(100000, 45000, 4000, 24 * 365, 1000, 90, 10000) / JUDGE_PENCE_TO_THE_POUND;
    add(f, 2, JUDGE_WITH_CAPS + JUDGE_WITH_DRAWN + DRAWN_POTS);
    for (unsigned p = 0; p < DRAWN_POTS; p++) {
        for (unsigned y = 0; y < YEARS; y++) {
            unsigned last = y < DELIVERY_YEARS ? y : DELIVERY_YEARS - 1;
            add(f, 8, one * (2 * WINNERS_OF_A_DRAW * (last + 1) + 1) / 2);
        }
        add(f, 4, JUDGE_NO_CAP);
        add(f, 4, DRAWN_NUMBER + p);
    }
}

static void make_draws(struct round_file *f)
{
    static struct round_file plain;
    unsigned bids = 0;
    start(&plain, DRAWN_POTS, NULL);
    memcpy(f->bytes, plain.bytes, plain.budgets - 2);
    f->len = plain.budgets - 2;
    add_pots_of_draws(f);
    size_t rest = plain.budgets + 8 * YEARS * DRAWN_POTS;
    memcpy(f->bytes + f->len, plain.bytes + rest, plain.len - rest);
    f->len += plain.len - rest;
    add(f, 2, DRAWN_APPLICATIONS);
    for (unsigned i = 0; i < DRAWN_APPLICATIONS; i++) {
        add_application(f, i % DRAWN_POTS, 100 - i, 1000);
        bids += DELIVERY_YEARS - first_draw(i);
    }
    add(f, 2, bids);
    for (unsigned i = 0; i < DRAWN_APPLICATIONS; i++)
        for (unsigned d = first_draw(i); d < DELIVERY_YEARS; d++)
            add_bid(f, i, d, 1000, 100000 + 10 * d);
}

/* ---- ties of 20, drawn ---- */

/* What there is to draw from: any ten of twenty; those of the tie over years, as the judge has it; any eighteen; one; and any nine of nineteen. */
enum { WIDE = JUDGE_MAX_REMAINING, HALF_OF_WIDE = WIDE / 2, OF_HALF = 184756, OF_YEARS = 51000, OF_ALL_BUT_TWO = 190, OF_DIFFERENT = 1, OF_NINETEEN = 92378 };
enum { WIDE_PRICE = 100000, WIDE_CAPACITY = 1000, BYTES_OF_A_TECHNOLOGY = 4 + 10 * YEARS };

/* Takes the one in the middle of so many, and leaves much for the ties after it. */
static uint32_t drawn_number(uint32_t combinations)
{
    return (JUDGE_MAX_DRAWN / combinations - 1) * combinations + combinations / 2;
}

/* As `start`, with pots that have this cap and a drawn number; answers the place of the first technology. */
static size_t start_wide(struct round_file *f, unsigned pots, uint32_t cap, uint32_t combinations)
{
    static struct round_file plain;
    start(&plain, pots, NULL);
    memcpy(f->bytes, plain.bytes, plain.budgets);
    set(f, plain.budgets - 2, 2, JUDGE_WITH_CAPS + JUDGE_WITH_DRAWN + pots);
    f->budgets = f->len = plain.budgets;
    for (unsigned p = 0; p < pots; p++) {
        for (unsigned y = 0; y < YEARS; y++)
            add(f, 8, BUDGET_LIMIT);
        add(f, 4, cap);
        add(f, 4, drawn_number(combinations));
    }
    size_t rest = plain.budgets + 8 * YEARS * pots;
    memcpy(f->bytes + f->len, plain.bytes + rest, plain.len - rest);
    f->len += plain.len - rest;
    return f->len - TECHNOLOGIES * BYTES_OF_A_TECHNOLOGY;
}

/* In the last year the reference is above the price. */
static void cost_nothing_at_last(struct round_file *f, size_t technologies)
{
    for (unsigned t = 0; t < TECHNOLOGIES; t++)
        set(f, technologies + t * BYTES_OF_A_TECHNOLOGY + 4 + 10 * (YEARS - 1) + 4, 4, 2 * WIDE_PRICE);
}

/* What a bid of a tie costs in a whole year. */
static uint64_t cost_of_a_year(uint32_t capacity)
{
    return judge_value(WIDE_PRICE, 45000, 4000, 24 * 365, capacity, 90, 10000) / JUDGE_PENCE_TO_THE_POUND;
}

/* In every year from this one on, so many tenths of a bid of that capacity. */
static void set_budgets_in_tenths(struct round_file *f, unsigned from, unsigned tenths, uint32_t capacity)
{
    for (unsigned y = from; y < YEARS; y++)
        set(f, f->budgets + 8 * y, 8, cost_of_a_year(capacity) * tenths / 10);
}

/* Twenty of these capacities, tied in year 0. */
static void add_one_wide_tie(struct round_file *f, const uint32_t *capacity)
{
    add(f, 2, WIDE);
    for (unsigned i = 0; i < WIDE; i++)
        add_application(f, 0, 100 - i, capacity[i]);
    add(f, 2, WIDE);
    for (unsigned i = 0; i < WIDE; i++)
        add_bid(f, i, 0, capacity[i], WIDE_PRICE);
}

/* How many of the twenty win, as the judge has it. */
enum { DIFFERENT_WON = 12, OVER_YEARS_WON = 10 };

/* All alike: any ten fit, and no eleven. */
static void make_wide_alike(struct round_file *f)
{
    uint32_t capacity[WIDE];
    for (unsigned i = 0; i < WIDE; i++)
        capacity[i] = WIDE_CAPACITY;
    start_wide(f, 1, JUDGE_NO_CAP, OF_HALF);
    add_one_wide_tie(f, capacity);
    set_budgets_in_tenths(f, 0, 10 * HALF_OF_WIDE + 5, WIDE_CAPACITY);
}

/* No two for the same capacity, from 10 to 100 MW, and money for half of them. */
static void make_wide_different(struct round_file *f)
{
    struct rng rng = { 7 };
    uint32_t capacity[WIDE], sum = 0;
    for (unsigned i = 0; i < WIDE; i++) {
        capacity[i] = WIDE_CAPACITY + 450 * i + (uint32_t)rng_below(&rng, 450);
        sum += capacity[i];
    }
    start_wide(f, 1, JUDGE_NO_CAP, OF_DIFFERENT);
    add_one_wide_tie(f, capacity);
    set_budgets_in_tenths(f, 0, 5, sum);
}

/* Thirty win before, one after the other, in four delivery years, and then twenty are tied over these years, alike but for the year: their price
 * makes all the thirty dearer. Each year pays for about half of those tied so far. */
enum { WON_BEFORE = 30 };

static void make_wide_over_years(struct round_file *f)
{
    start_wide(f, 1, JUDGE_NO_CAP, OF_YEARS);
    add(f, 2, WON_BEFORE + WIDE);
    for (unsigned i = 0; i < WON_BEFORE + WIDE; i++)
        add_application(f, i % TECHNOLOGIES, 100 - i, WIDE_CAPACITY);
    add(f, 2, WON_BEFORE + WIDE);
    for (unsigned i = 0; i < WON_BEFORE + WIDE; i++)
        add_bid(f, i, i % DELIVERY_YEARS, WIDE_CAPACITY, i < WON_BEFORE ? WIDE_PRICE - 10 * (WON_BEFORE - i) : WIDE_PRICE);
    for (unsigned y = 0; y < DELIVERY_YEARS; y++) {
        unsigned tenths = 5;
        for (unsigned i = 0; i < WON_BEFORE + WIDE; i++)
            if (i % DELIVERY_YEARS <= y)
                tenths += i < WON_BEFORE ? 10 : 5;
        set_budgets_in_tenths(f, y, tenths, WIDE_CAPACITY);
    }
}

/* Any eighteen fit, and no nineteen, and the last year costs nothing: every combination that fits is best, and 190 are kept. */
static void make_wide_free_at_last(struct round_file *f)
{
    uint32_t capacity[WIDE];
    for (unsigned i = 0; i < WIDE; i++)
        capacity[i] = WIDE_CAPACITY + i;
    cost_nothing_at_last(f, start_wide(f, 1, JUDGE_NO_CAP, OF_ALL_BUT_TWO));
    add_one_wide_tie(f, capacity);
    set_budgets_in_tenths(f, 0, 10 * (WIDE - 2) + 5, WIDE_CAPACITY + HALF_OF_WIDE);
}

/* The worst found so far. In each of three pots a cap holds twenty to nine of the nineteen that are alike and a small one, and the last year costs
 * nothing: every combination that fits is best, and none is kept without the small one. */
enum { WORST_POTS = APPLICATIONS / WIDE, SMALL_CAPACITY = WIDE_CAPACITY / 100, WON_OF_WORST = HALF_OF_WIDE };

static void make_wide_worst(struct round_file *f)
{
    unsigned applications = WORST_POTS * WIDE;
    cost_nothing_at_last(f, start_wide(f, WORST_POTS, WON_OF_WORST * WIDE_CAPACITY - WIDE_CAPACITY / 2, OF_NINETEEN));
    add(f, 2, applications);
    for (unsigned i = 0; i < applications; i++)
        add_application(f, i % WORST_POTS, 100 - i, i / WORST_POTS < WIDE - 1 ? WIDE_CAPACITY : SMALL_CAPACITY);
    add(f, 2, applications);
    for (unsigned i = 0; i < applications; i++)
        add_bid(f, i, 0, i / WORST_POTS < WIDE - 1 ? WIDE_CAPACITY : SMALL_CAPACITY, WIDE_PRICE);
}

/* The last bid is the lowest of its application and year, and no multiple of 10: refusal 11, after all else was judged. */
static void make_refused(struct round_file *f)
{
    make_full(f, MOST_POTS);
    set(f, f->last_bid + 10, 4, 70001);
}

/* What the winners of a pot hold of a full round of four pots, in hundredths of a MW. */
static uint32_t capacity_won(const struct round_file *f, const uint8_t *result, unsigned pot)
{
    const uint8_t *applications = result + 2 + MOST_POTS * (2 + 4 * DELIVERY_YEARS + 8 * YEARS) + 2;
    const uint8_t *bids = f->bytes + f->last_bid - 14 * (APPLICATIONS * DELIVERY_YEARS - 1);
    uint32_t capacity = 0;
    for (unsigned i = pot; i < APPLICATIONS; i += MOST_POTS) {
        const uint8_t *application = applications + 10 * i;
        if (get(application, 2) == 1)
            capacity += (uint32_t)get(bids + 14 * get(application + 2, 2) + 6, 4);
    }
    return capacity;
}

/* The full round, with a cap of three quarters of what each pot's winners hold without. */
static void make_capped(struct round_file *f)
{
    static struct round_file full;
    uint8_t result[JUDGE_MAX_RESULT];
    make_full(&full, MOST_POTS);
    judge_clear(full.bytes, full.len, result, sizeof result);
    memcpy(f->bytes, full.bytes, full.budgets);
    set(f, full.budgets - 2, 2, JUDGE_WITH_CAPS + MOST_POTS);
    f->len = f->budgets = full.budgets;
    for (unsigned p = 0; p < MOST_POTS; p++) {
        memcpy(f->bytes + f->len, full.bytes + full.budgets + 8 * YEARS * p, 8 * YEARS);
        f->len += 8 * YEARS;
        add(f, 4, capacity_won(&full, result, p) / 4 * 3);
    }
    size_t rest = full.budgets + 8 * YEARS * MOST_POTS;
    memcpy(f->bytes + f->len, full.bytes + rest, full.len - rest);
    f->last_bid = full.last_bid + f->len - rest;
    f->len += full.len - rest;
}

/* ---- what the files are ---- */

static unsigned bids_of_reason_in(const uint8_t *result, uint64_t len, unsigned reason)
{
    unsigned count = 0;
    const uint8_t *p = result + 2 + get(result, 2) * (2 + 4 * DELIVERY_YEARS + 8 * YEARS);
    for (p += 2 + 10 * get(p, 2) + 2; p < result + len; p += 2)
        count += get(p, 2) == reason;
    return count;
}

static unsigned bids_of_reason(const struct round_file *f, unsigned reason)
{
    uint8_t result[JUDGE_MAX_RESULT];
    judge_clear(f->bytes, f->len, result, sizeof result);
    return bids_of_reason_in(result, judge_result_len(f->bytes, f->len), reason);
}

/* ---- time ---- */

typedef uint64_t clearing(const uint8_t *, uint64_t, uint8_t *, uint64_t);

static uint64_t now(void)
{
    struct timespec t;
    clock_gettime(CLOCK_MONOTONIC, &t);
    return (uint64_t)t.tv_sec * 1000000000u + (uint64_t)t.tv_nsec;
}

static uint64_t time_of(clearing *clear, const struct round_file *f, unsigned times)
{
    uint8_t result[JUDGE_MAX_RESULT];
    uint64_t begun = now();
    for (unsigned i = 0; i < times; i++)
        clear(f->bytes, f->len, result, sizeof result);
    return now() - begun;
}

static unsigned times_in_a_batch(clearing *clear, const struct round_file *f)
{
    unsigned times = 1;
    while (time_of(clear, f, times) < NANOSECONDS_OF_A_BATCH)
        times *= 2;
    return times;
}

/* The quickest of some batches of each, taken in turn, in nanoseconds a file. */
static void measure(const char *name, const struct round_file *f)
{
    unsigned library_times = times_in_a_batch(gustmirror_clear, f);
    unsigned judge_times = times_in_a_batch(judge_clear, f);
    double library = 1e18, judge = 1e18;
    for (unsigned i = 0; i < BATCHES; i++) {
        double l = (double)time_of(gustmirror_clear, f, library_times) / library_times;
        double j = (double)time_of(judge_clear, f, judge_times) / judge_times;
        library = l < library ? l : library;
        judge = j < judge ? j : judge;
    }
    printf("| %s | %.1f | %.1f | %.2f |\n", name, library / 1000, judge / 1000, library / judge);
}

/* A file of ties of 20: the quickest of a few runs of the library, and one of the judge, which tries a million combinations for each. Answers whether
 * both give the same result, with so many bids that won and so many turned down in a tie. */
static bool measure_wide(const char *name, const struct round_file *f, unsigned won, unsigned turned_down)
{
    static uint8_t of_library[JUDGE_MAX_RESULT], of_judge[JUDGE_MAX_RESULT];
    uint64_t len = judge_result_len(f->bytes, f->len), begun = now();
    judge_clear(f->bytes, f->len, of_judge, sizeof of_judge);
    double judge = (double)(now() - begun), library = 1e18;
    for (unsigned i = 0; i < RUNS_OF_WIDE_TIES; i++) {
        begun = now();
        gustmirror_clear(f->bytes, f->len, of_library, sizeof of_library);
        double l = (double)(now() - begun);
        library = l < library ? l : library;
    }
    printf("| %s | %.1f | %.1f | %.6f |\n", name, library / 1000, judge / 1000, library / judge);
    return len > 0 && memcmp(of_library, of_judge, len) == 0 && bids_of_reason_in(of_judge, len, 1) == won
        && bids_of_reason_in(of_judge, len, 3) == turned_down;
}

static void describe(const char *name, const struct round_file *f)
{
    printf("%s: %u bids won, %u turned down alone, %u in a tie, %u not looked at\n", name, bids_of_reason(f, 1), bids_of_reason(f, 2),
           bids_of_reason(f, 3), bids_of_reason(f, 4) + bids_of_reason(f, 5));
}

static struct round_file full, single, ties, refused, capped, draws, alike, different, over_years, free_at_last, worst;

static void make_all(void)
{
    make_full(&full, MOST_POTS);
    make_full(&single, 1);
    make_ties(&ties);
    make_refused(&refused);
    make_capped(&capped);
    make_draws(&draws);
    make_wide_alike(&alike);
    make_wide_different(&different);
    make_wide_over_years(&over_years);
    make_wide_free_at_last(&free_at_last);
    make_wide_worst(&worst);
}

/* Answers whether the file could be written. */
static bool write_file(const char *folder, const char *name, const struct round_file *f)
{
    char path[1024];
    int len = snprintf(path, sizeof path, "%s/%s.round", folder, name);
    FILE *out = len > 0 && (size_t)len < sizeof path ? fopen(path, "wb") : NULL;
    if (out == NULL)
        return false;
    bool written = fwrite(f->bytes, 1, f->len, out) == f->len;
    return fclose(out) == 0 && written;
}

static int write_all(const char *folder)
{
    bool written = write_file(folder, "full", &full) && write_file(folder, "single", &single) && write_file(folder, "ties", &ties)
        && write_file(folder, "refused", &refused) && write_file(folder, "capped", &capped) && write_file(folder, "draws", &draws)
        && write_file(folder, "wide-alike", &alike) && write_file(folder, "wide-different", &different)
        && write_file(folder, "wide-over-years", &over_years) && write_file(folder, "wide-free-at-last", &free_at_last)
        && write_file(folder, "wide-worst", &worst);
    if (!written)
        printf("the files could not be written to %s\n", folder);
    return !written;
}

/* Answers whether these are the files that they should be. */
static bool measure_wide_ties(void)
{
    bool right = measure_wide("one tie of 20 all alike, drawn: 184,756 combinations", &alike, HALF_OF_WIDE, HALF_OF_WIDE);
    right &= measure_wide("one tie of 20 all different, drawn: one combination", &different, DIFFERENT_WON, WIDE - DIFFERENT_WON);
    right &= measure_wide("one tie of 20 over four delivery years, after 30 winners, drawn: 51,000 combinations", &over_years, WON_BEFORE + OVER_YEARS_WON, WIDE - OVER_YEARS_WON);
    right &= measure_wide("one tie of 20 of which any 18 fit, and the last year costs nothing, drawn: 190 combinations", &free_at_last, WIDE - 2, 2);
    right &= measure_wide("the worst found so far: three pots of a tie of 20 each, held to a half by the cap, and the last year costs nothing, drawn: 92,378 combinations of each",
                          &worst, WORST_POTS * WON_OF_WORST, WORST_POTS * (WIDE - WON_OF_WORST));
    return right;
}

int main(int argc, char **argv)
{
    make_all();
    if (argc == 3 && strcmp(argv[1], "--write") == 0)
        return write_all(argv[2]);
    describe("full round", &full);
    describe("single pot", &single);
    describe("ties", &ties);
    describe("full round with caps", &capped);
    describe("draws", &draws);
    if (bids_of_reason(&ties, 1) != MOST_POTS * DELIVERY_YEARS * WINNERS_OF_A_TIE
        || bids_of_reason(&ties, 3) != MOST_POTS * DELIVERY_YEARS * (TIED - WINNERS_OF_A_TIE)
        || bids_of_reason(&draws, 1) != DRAWN_POTS * DELIVERY_YEARS * WINNERS_OF_A_DRAW
        || bids_of_reason(&draws, 3) != DRAWN_POTS * DELIVERY_YEARS * (TIED - WINNERS_OF_A_DRAW)
        || judge_clear(refused.bytes, refused.len, NULL, 0) >> 32 != 11 || capped.len != LONGEST_WITH_CAPS
        || bids_of_reason(&capped, 1) == 0 || bids_of_reason(&capped, 1) >= bids_of_reason(&full, 1)) {
        printf("these are not the files that they should be\n");
        return 1;
    }
    printf("\n| round | library, µs | plain C, µs | library / plain C |\n|---|---|---|---|\n");
    measure("full round: 8 years, 4 pots, 32 technologies, 64 applications, 256 bids", &full);
    measure("full single pot: the same in one pot", &single);
    measure("sixteen ties of 10", &ties);
    measure("refused for its last bid", &refused);
    measure("full round with caps: the first round, with a cap for each pot", &capped);
    measure("eight ties of 10 all alike, drawn: 252 combinations to draw from in each", &draws);
    if (!measure_wide_ties()) {
        printf("the ties of 20 are not those that they should be, or the two do not agree on them\n");
        return 1;
    }
    return 0;
}
