/* The judge: document 01 in plain C, with CR 5, 6, 7, 8 and 11 of 02: pots may have
 * caps and drawn numbers, wide ties are broken, silence is no bid, and values are
 * to the penny.  Every combination of a tie is tried anew, however wide it is.
 * Sentences of the papers stand quoted in the comments; words like look, trial,
 * winner, live, closed are theirs.  An application is silent where it has no
 * sealed bid. */
#include "judge.h"

#include <stdarg.h>
#include <stdio.h>
#include <string.h>

__extension__ typedef unsigned __int128 u128;

enum {
    MAX_YEARS = JUDGE_MAX_YEARS,
    MAX_DELIVERY_YEARS = JUDGE_MAX_DELIVERY_YEARS,
    MAX_POTS = JUDGE_MAX_POTS,
    MAX_TECHNOLOGIES = JUDGE_MAX_TECHNOLOGIES,
    MAX_APPLICATIONS = JUDGE_MAX_APPLICATIONS,
    MAX_BIDS = JUDGE_MAX_BIDS,
    MAX_BIDS_OF_APPLICATION = 10,
    MAX_BIDS_IN_YEAR = 3,
    MAX_REMAINING = JUDGE_MAX_REMAINING,
    MAX_COMBINATIONS = 1 << MAX_REMAINING,
    WIDE = JUDGE_WIDE,
    PENCE_TO_THE_POUND = JUDGE_PENCE_TO_THE_POUND,
    WITH_CAPS = JUDGE_WITH_CAPS,
    WITH_DRAWN = JUDGE_WITH_DRAWN,
    MAX_CAP = JUDGE_MAX_CAP
};

enum section { YEARS, POTS, TECHNOLOGIES, APPLICATIONS, BIDS };
enum kind { VALUATION_ONLY = 0, DELIVERY = 1 };
enum outcome { ADMINISTRATIVE = 0, AUCTION = 1, TIE = 2 };

enum reason {
    NOT_YET_LOOKED_AT = 0,
    WON = 1,
    TURNED_DOWN_ALONE = 2,
    TURNED_DOWN_IN_TIE = 3,
    NOT_LOOKED_AT_APPLICATION_WON = 4,
    NOT_LOOKED_AT_OTHERWISE = 5,
    IN_OUTCOME_0 = 6,
    IN_OUTCOME_2 = 7,
    SILENT_IN_OUTCOME_1 = 8
};

#define NO_BID 65535u
#define NO_PRICE 4294967295u
#define NO_CAP JUDGE_NO_CAP

/* ---- the round as read ---- */

struct year {
    uint32_t days, kind, tlm;
};

struct pot {
    uint64_t budget[MAX_YEARS]; /* in pounds */
    uint32_t cap;               /* on the capacity of its winners, or NO_CAP */
    uint32_t drawn;             /* number, where the round has them */
};

struct technology {
    uint32_t pot, rqm;
    uint32_t administrative[MAX_YEARS];
    uint32_t reference[MAX_YEARS];
    uint32_t load_factor[MAX_YEARS];
};

struct application {
    uint32_t technology, year, days, draw, capacity;
    uint64_t declared_cost;
    uint32_t sealed_bids;
    uint32_t sealed_bids_in_year[MAX_DELIVERY_YEARS];
};

struct bid {
    uint32_t number; /* its number in the file, or NO_BID */
    uint32_t application, year, days, capacity, price;
    uint64_t offset;
};

struct round {
    unsigned year_count, delivery_years;
    unsigned pot_count, technology_count, application_count, bid_count;
    bool with_caps, with_drawn;
    struct year years[MAX_YEARS];
    struct pot pots[MAX_POTS];
    struct technology technologies[MAX_TECHNOLOGIES];
    struct application applications[MAX_APPLICATIONS];
    struct bid bids[MAX_BIDS];
};

/* ---- the result before it is written or printed ---- */

struct pot_result {
    uint32_t outcome;
    uint32_t price[MAX_DELIVERY_YEARS];
    uint64_t total[MAX_YEARS]; /* in pence */
};

struct application_result {
    uint32_t won, bid, automatic_reason, price;
};

struct clearing {
    struct pot_result pots[MAX_POTS];
    struct application_result applications[MAX_APPLICATIONS];
    uint32_t bid_reasons[MAX_BIDS];
#ifdef JUDGE_COUNT
    unsigned draws[MAX_POTS]; /* from two combinations or more */
#endif
};

/* ---- counters (with JUDGE_COUNT only) ---- */

#ifdef JUDGE_COUNT
/* so many remaining at most are tried again for what is only counted */
enum { TRIED_AGAIN = 14 };
struct judge_counts judge_counts;
bool judge_counting;
#define COUNT(statement) do { if (judge_counting) { statement; } } while (0)
#define CLAUSE(name, condition) ((condition) && count_clause(JUDGE_CLAUSE_##name))
static bool count_clause(enum judge_clause clause)
{
    judge_counts.clause[clause] += judge_counting;
    return true;
}
#else
#define COUNT(statement) do { } while (0)
#define CLAUSE(name, condition) (condition)
#endif

/* ---- reading ---- */

/* "A reader holds the file and its place in it." */
struct reader {
    const uint8_t *file;
    uint64_t len, place;
    uint64_t refusal; /* number * 2^32 + offset, or 0 */
};

/* "Each refusal is a number and the offset of the count or record at fault
 * (0 where it is not in the file)." */
static uint64_t refusal(unsigned number, uint64_t offset)
{
    COUNT(judge_counts.refusal[number]++);
    return ((uint64_t)number << 32) + offset;
}

static bool refuse(struct reader *r, unsigned number, uint64_t offset)
{
    r->refusal = refusal(number, offset);
    return false;
}

/* "Numbers are little-endian." */
static uint64_t number_at(const uint8_t *p, unsigned bytes)
{
    uint64_t n = 0;
    for (unsigned i = 0; i < bytes; i++)
        n |= (uint64_t)p[i] << (8 * i);
    return n;
}

/* "A record's fields follow each other with no gap." */
static uint64_t field(const uint8_t **p, unsigned bytes)
{
    uint64_t n = number_at(*p, bytes);
    *p += bytes;
    return n;
}

/* 1: "the file ends before the end of this count or record" */
static const uint8_t *take(struct reader *r, uint64_t bytes)
{
    if (r->len - r->place < bytes) {
        refuse(r, 1, r->place);
        return NULL;
    }
    const uint8_t *p = r->file + r->place;
    r->place += bytes;
    return p;
}

/* "Five sections stand in this order, each after its 2-byte count" */
static bool take_count(struct reader *r, enum section section, unsigned *count)
{
    const uint8_t *p = take(r, 2);
    (void)section;
    if (p == NULL) {
        COUNT(judge_counts.cut_count[section]++);
        return false;
    }
    *count = (unsigned)number_at(p, 2);
    return true;
}

/* 2: "count outside its range".  The count was the last thing taken. */
static bool judge_count(struct reader *r, enum section section,
                        unsigned least, unsigned most, unsigned count)
{
    (void)section;
    if (count >= least && count <= most)
        return true;
    COUNT(if (count < least) judge_counts.count_low[section]++;
          else judge_counts.count_high[section]++);
    return refuse(r, 2, r->place - 2);
}

static bool read_count(struct reader *r, enum section section,
                       unsigned least, unsigned most, unsigned *count)
{
    return take_count(r, section, count) && judge_count(r, section, least, most, *count);
}

static const uint8_t *take_record(struct reader *r, enum section section, uint64_t bytes)
{
    const uint8_t *p = take(r, bytes);
    (void)section;
    if (p == NULL)
        COUNT(judge_counts.cut_record[section]++);
    return p;
}

/* 3: "days not 365 or 366; kind above 1; TLM above 10,000; year 0 not a
 * delivery year; a delivery year after a valuation-only one; a fifth delivery
 * year".  Delivery years so far are the first round->delivery_years. */
static bool year_at_fault(const struct round *round, unsigned i)
{
    const struct year *year = &round->years[i];
    bool delivery = year->kind == DELIVERY;
    return CLAUSE(year_days, year->days != 365 && year->days != 366)
        || CLAUSE(year_kind, year->kind > 1)
        || CLAUSE(year_tlm, year->tlm > 10000)
        || CLAUSE(year_0_not_delivery, i == 0 && !delivery)
        || CLAUSE(delivery_after_valuation_only, delivery && round->delivery_years < i)
        || CLAUSE(fifth_delivery_year, delivery && round->delivery_years == MAX_DELIVERY_YEARS);
}

static bool read_years(struct reader *r, struct round *round)
{
    if (!read_count(r, YEARS, 1, MAX_YEARS, &round->year_count))
        return false;
    for (unsigned i = 0; i < round->year_count; i++) {
        uint64_t offset = r->place;
        const uint8_t *p = take_record(r, YEARS, 6);
        if (p == NULL)
            return false;
        struct year *year = &round->years[i];
        year->days = (uint32_t)field(&p, 2);
        year->kind = (uint32_t)field(&p, 2);
        year->tlm = (uint32_t)field(&p, 2);
        if (year_at_fault(round, i))
            return refuse(r, 3, offset);
        if (year->kind == DELIVERY)
            round->delivery_years++;
    }
    return true;
}

/* 4: "a budget above 1,000,000,000,000" and, by CR 5, "a cap out of range": it is
 * "up to 20,000,000, or 4,294,967,295 for none". */
static bool pot_at_fault(const struct round *round, const struct pot *pot)
{
    for (unsigned y = 0; y < round->year_count; y++)
        if (CLAUSE(budget_above, pot->budget[y] > 1000000000000u))
            return true;
    return CLAUSE(cap_above, pot->cap > MAX_CAP && pot->cap != NO_CAP);
}

#ifdef JUDGE_COUNT
static void count_pots_count(unsigned count)
{
    enum { BOTH = WITH_CAPS + WITH_DRAWN };
    unsigned pots = count % WITH_DRAWN, added = count - pots;
    bool in_range = pots >= 1 && pots <= MAX_POTS;
    judge_counts.pots_count_0_with_caps += count == WITH_CAPS;
    judge_counts.pots_count_high_with_caps += added == WITH_CAPS && pots > MAX_POTS;
    judge_counts.pots_count_with_16384 += added == WITH_DRAWN && in_range;
    judge_counts.pots_count_0_with_drawn_numbers += count == BOTH;
    judge_counts.pots_count_high_with_drawn_numbers += added == BOTH && pots > MAX_POTS;
}

/* A record of a pot that is cut after its cap, where its number would stand. */
static void count_cut_pot(const struct reader *r, const struct round *round)
{
    judge_counts.cut_in_a_drawn_number +=
        round->with_drawn && r->len - r->place >= 8 * round->year_count + 4;
}
#endif

/* CR 5: "the pots count of such a file has 32,768 added".  CR 6: "the pots count
 * has 16,384 added as well"; "16,384 added without 32,768 is refusal 2". */
static bool read_pot_count(struct reader *r, struct round *round)
{
    unsigned count;
    if (!take_count(r, POTS, &count))
        return false;
    COUNT(count_pots_count(count));
    round->with_caps = count >= WITH_CAPS;
    round->with_drawn = count >= WITH_CAPS + WITH_DRAWN;
    round->pot_count = count - (round->with_caps ? WITH_CAPS : 0) - (round->with_drawn ? WITH_DRAWN : 0);
    return judge_count(r, POTS, 1, MAX_POTS, round->pot_count);
}

static uint64_t bytes_of_a_pot(const struct round *round)
{
    return 8 * round->year_count + (round->with_caps ? 4 : 0) + (round->with_drawn ? 4 : 0);
}

/* CR 5: "The pot record gains a 4-byte cap after its budgets".  CR 6: "The pot
 * gains a 4-byte drawn number after the cap". */
static bool read_pots(struct reader *r, struct round *round)
{
    if (!read_pot_count(r, round))
        return false;
    for (unsigned i = 0; i < round->pot_count; i++) {
        uint64_t offset = r->place;
        const uint8_t *p = take_record(r, POTS, bytes_of_a_pot(round));
        if (p == NULL) {
            COUNT(count_cut_pot(r, round));
            return false;
        }
        struct pot *pot = &round->pots[i];
        for (unsigned y = 0; y < round->year_count; y++)
            pot->budget[y] = field(&p, 8);
        pot->cap = round->with_caps ? (uint32_t)field(&p, 4) : NO_CAP;
        pot->drawn = round->with_drawn ? (uint32_t)field(&p, 4) : 0;
        if (pot_at_fault(round, pot)) {
            COUNT(judge_counts.cap_above_beside_a_drawn_number +=
                      round->with_drawn && pot->cap > MAX_CAP && pot->cap != NO_CAP);
            return refuse(r, 4, offset);
        }
    }
    return true;
}

/* 5: "administrative price not a multiple of 10 from 10 to 500,000 in a
 * delivery year, or not 0 in another" */
static bool administrative_at_fault(const struct round *round, unsigned y, uint32_t price)
{
    if (y >= round->delivery_years)
        return CLAUSE(administrative_not_0, price != 0);
    return CLAUSE(administrative_below_10, price < 10)
        || CLAUSE(administrative_above, price > 500000)
        || CLAUSE(administrative_not_multiple, price % 10 != 0);
}

/* 5: "pot not in the file; RQM or load factor above 10,000; reference above
 * 500,000; ..." */
static bool technology_at_fault(const struct round *round, const struct technology *technology)
{
    if (CLAUSE(pot_not_in_file, technology->pot >= round->pot_count)
        || CLAUSE(rqm_above, technology->rqm > 10000))
        return true;
    for (unsigned y = 0; y < round->year_count; y++)
        if (CLAUSE(load_factor_above, technology->load_factor[y] > 10000)
            || CLAUSE(reference_above, technology->reference[y] > 500000)
            || administrative_at_fault(round, y, technology->administrative[y]))
            return true;
    return false;
}

static bool read_technologies(struct reader *r, struct round *round)
{
    if (!read_count(r, TECHNOLOGIES, 1, MAX_TECHNOLOGIES, &round->technology_count))
        return false;
    for (unsigned i = 0; i < round->technology_count; i++) {
        uint64_t offset = r->place;
        const uint8_t *p = take_record(r, TECHNOLOGIES, 4 + 10 * round->year_count);
        if (p == NULL)
            return false;
        struct technology *technology = &round->technologies[i];
        technology->pot = (uint32_t)field(&p, 2);
        technology->rqm = (uint32_t)field(&p, 2);
        for (unsigned y = 0; y < round->year_count; y++) {
            technology->administrative[y] = (uint32_t)field(&p, 4);
            technology->reference[y] = (uint32_t)field(&p, 4);
            technology->load_factor[y] = (uint32_t)field(&p, 2);
        }
        if (technology_at_fault(round, technology))
            return refuse(r, 5, offset);
    }
    return true;
}

/* 6: "draw used by an earlier application" */
static bool draw_used(const struct round *round, unsigned i)
{
    for (unsigned earlier = 0; earlier < i; earlier++)
        if (round->applications[earlier].draw == round->applications[i].draw)
            return true;
    return false;
}

/* 6: "technology not in the file; year not a delivery year; days 0 or above
 * that year's; capacity 0 or above 300,000; ..." */
static bool application_at_fault(const struct round *round, unsigned i)
{
    const struct application *application = &round->applications[i];
    return CLAUSE(technology_not_in_file, application->technology >= round->technology_count)
        || CLAUSE(application_year, application->year >= round->delivery_years)
        || CLAUSE(application_days_0, application->days == 0)
        || CLAUSE(application_days_above, application->days > round->years[application->year].days)
        || CLAUSE(application_capacity_0, application->capacity == 0)
        || CLAUSE(application_capacity_above, application->capacity > 300000)
        || CLAUSE(draw_used, draw_used(round, i));
}

static bool read_applications(struct reader *r, struct round *round)
{
    if (!read_count(r, APPLICATIONS, 0, MAX_APPLICATIONS, &round->application_count))
        return false;
    for (unsigned i = 0; i < round->application_count; i++) {
        uint64_t offset = r->place;
        const uint8_t *p = take_record(r, APPLICATIONS, 20);
        if (p == NULL)
            return false;
        struct application *application = &round->applications[i];
        application->technology = (uint32_t)field(&p, 2);
        application->year = (uint32_t)field(&p, 2);
        application->days = (uint32_t)field(&p, 2);
        application->draw = (uint32_t)field(&p, 2);
        application->capacity = (uint32_t)field(&p, 4);
        application->declared_cost = field(&p, 8);
        if (application_at_fault(round, i))
            return refuse(r, 6, offset);
    }
    return true;
}

/* 7: "application not in the file; year not a delivery year; days 0 or above
 * that year's; capacity 0 or above the application's; start earlier than the
 * application's; price above the administrative price of its technology and
 * year".  ""Earlier start" means a smaller year, or the same year with more
 * days." */
static bool bid_at_fault(const struct round *round, const struct bid *bid)
{
    if (CLAUSE(application_not_in_file, bid->application >= round->application_count)
        || CLAUSE(bid_year, bid->year >= round->delivery_years))
        return true;
    const struct application *application = &round->applications[bid->application];
    const struct technology *technology = &round->technologies[application->technology];
    return CLAUSE(bid_days_0, bid->days == 0)
        || CLAUSE(bid_days_above, bid->days > round->years[bid->year].days)
        || CLAUSE(bid_capacity_0, bid->capacity == 0)
        || CLAUSE(bid_capacity_above, bid->capacity > application->capacity)
        || CLAUSE(bid_year_earlier, bid->year < application->year)
        || CLAUSE(bid_more_days, bid->year == application->year && bid->days > application->days)
        || CLAUSE(bid_price_above, bid->price > technology->administrative[bid->year]);
}

/* 8: "price of an earlier bid of the same application" */
static bool price_of_an_earlier_bid(const struct round *round, const struct bid *bid)
{
    for (unsigned earlier = 0; earlier < bid->number; earlier++)
        if (CLAUSE(price_of_earlier_bid,
                   round->bids[earlier].application == bid->application
                   && round->bids[earlier].price == bid->price))
            return true;
    return false;
}

/* 9: "eleventh bid of an application, or its fourth in one year" */
static bool one_bid_too_many(const struct round *round, const struct bid *bid)
{
    const struct application *application = &round->applications[bid->application];
    return CLAUSE(eleventh_bid, application->sealed_bids == MAX_BIDS_OF_APPLICATION)
        || CLAUSE(fourth_bid_in_year,
                  application->sealed_bids_in_year[bid->year] == MAX_BIDS_IN_YEAR);
}

/* "Records are judged in file order; within one, 1 comes first, and for bids
 * 7, then 8, then 9." */
static bool judge_bid(struct reader *r, const struct round *round, const struct bid *bid)
{
    if (bid_at_fault(round, bid))
        return refuse(r, 7, bid->offset);
    if (price_of_an_earlier_bid(round, bid))
        return refuse(r, 8, bid->offset);
    if (one_bid_too_many(round, bid))
        return refuse(r, 9, bid->offset);
    return true;
}

static bool read_bids(struct reader *r, struct round *round)
{
    if (!read_count(r, BIDS, 0, MAX_BIDS, &round->bid_count))
        return false;
    for (unsigned i = 0; i < round->bid_count; i++) {
        struct bid *bid = &round->bids[i];
        bid->number = i;
        bid->offset = r->place;
        const uint8_t *p = take_record(r, BIDS, 14);
        if (p == NULL)
            return false;
        bid->application = (uint32_t)field(&p, 2);
        bid->year = (uint32_t)field(&p, 2);
        bid->days = (uint32_t)field(&p, 2);
        bid->capacity = (uint32_t)field(&p, 4);
        bid->price = (uint32_t)field(&p, 4);
        if (!judge_bid(r, round, bid))
            return false;
        round->applications[bid->application].sealed_bids++;
        round->applications[bid->application].sealed_bids_in_year[bid->year]++;
    }
    return true;
}

/* 10: "bytes after the last record (offset: the first of them)" */
static bool read_end(struct reader *r)
{
    if (CLAUSE(bytes_after, r->place < r->len))
        return refuse(r, 10, r->place);
    return true;
}

static bool lowest_of_application_in_year(const struct round *round, const struct bid *bid)
{
    for (unsigned i = 0; i < round->bid_count; i++) {
        const struct bid *other = &round->bids[i];
        if (other->application == bid->application && other->year == bid->year
            && other->price < bid->price)
            return false;
    }
    return true;
}

/* 11: "the lowest bid of an application in a year is not a multiple of 10"
 * "11 (first such bid in the file)" */
static bool judge_lowest_bids(struct reader *r, const struct round *round)
{
    for (unsigned i = 0; i < round->bid_count; i++) {
        const struct bid *bid = &round->bids[i];
        if (CLAUSE(lowest_not_multiple,
                   bid->price % 10 != 0 && lowest_of_application_in_year(round, bid)))
            return refuse(r, 11, bid->offset);
    }
    return true;
}

/* "A refusal met in one section ends the reading there."  Answers 0 or the
 * refusal. */
static uint64_t read_round(const uint8_t *file, uint64_t file_len, struct round *round)
{
    struct reader r = { file, file_len, 0, 0 };
    memset(round, 0, sizeof *round);
    if (read_years(&r, round) && read_pots(&r, round) && read_technologies(&r, round)
        && read_applications(&r, round) && read_bids(&r, round) && read_end(&r)
        && judge_lowest_bids(&r, round)) {
        COUNT(judge_counts.accepted++; judge_counts.accepted_with_caps += round->with_caps;
              judge_counts.accepted_with_drawn_numbers += round->with_drawn);
        return 0;
    }
    return r.refusal;
}

/* "The result needs 6 + P(2 + 4D + 8Y) + 10N + 2B bytes for P pots, D delivery
 * years, Y years, N applications, B bids" */
static uint64_t result_needs(const struct round *round)
{
    return 6 + round->pot_count * (2 + 4 * round->delivery_years + 8 * round->year_count)
        + 10 * round->application_count + 2 * round->bid_count;
}

/* ---- value of one bid ---- */

/* "the exact cost in pounds is (price − reference in y) × load factor in y ×
 * hours × capacity × (1 − TLM in y) × RQM, factors taken at their scales."
 * "Price less reference may fall below zero; the cost is then zero."
 * "The value is the exact cost rounded up once", and since 02's CR 11 "up to a
 * penny".  "the exact cost is a whole number of parts, 10^17 to the pound", so
 * 10^15 to the penny. */
uint64_t judge_value(uint32_t price, uint32_t reference, uint32_t load_factor,
                     uint32_t hours, uint32_t capacity, uint32_t tlm, uint32_t rqm)
{
    const uint64_t parts_to_the_penny = 1000000000000000u;
    int64_t difference = (int64_t)price - (int64_t)reference;
    if (difference <= 0)
        return 0;
    u128 parts = (u128)difference * load_factor * hours * capacity * (10000 - tlm) * rqm;
    return (uint64_t)((parts + parts_to_the_penny - 1) / parts_to_the_penny);
}

/* "Hours are 0 for y before d, 24 × first-year days for y = d, and 24 × days
 * of y after." */
static uint32_t hours_in_year(const struct round *round, const struct bid *bid, unsigned y)
{
    if (y < bid->year)
        return 0;
    if (y == bid->year)
        return 24 * bid->days;
    return 24 * round->years[y].days;
}

static const struct technology *technology_of(const struct round *round, const struct bid *bid)
{
    return &round->technologies[round->applications[bid->application].technology];
}

/* "The price is the clearing price of d, capped at the technology's
 * administrative price of d, and the same in every year." */
static uint32_t capped_price(const struct round *round, const struct bid *bid,
                             uint32_t clearing_price)
{
    uint32_t cap = technology_of(round, bid)->administrative[bid->year];
    return clearing_price < cap ? clearing_price : cap;
}

static uint64_t value_in_year(const struct round *round, const struct bid *bid,
                              uint32_t price, unsigned y)
{
    const struct technology *technology = technology_of(round, bid);
    return judge_value(price, technology->reference[y], technology->load_factor[y],
                       hours_in_year(round, bid, y), bid->capacity,
                       round->years[y].tlm, technology->rqm);
}

/* Clearing prices and year totals, a place for each year, and the summed
 * capacity. */
struct row {
    uint32_t price[MAX_YEARS];
    uint64_t total[MAX_YEARS]; /* in pence */
    uint64_t capacity;
#ifdef JUDGE_COUNT
    uint64_t in_pounds[MAX_YEARS]; /* the total of values rounded up to whole pounds */
#endif
};

static void empty_sums(struct row *row)
{
    row->capacity = 0;
    for (unsigned y = 0; y < MAX_YEARS; y++) {
        row->total[y] = 0;
        COUNT(row->in_pounds[y] = 0);
    }
}

static struct row empty_row(void)
{
    struct row row;
    for (unsigned y = 0; y < MAX_YEARS; y++)
        row.price[y] = NO_PRICE;
    empty_sums(&row);
    return row;
}

/* The capacity is that of the bid, not its application's. */
static void add_to_sums(const struct round *round, const struct bid *bid,
                        uint32_t clearing_price, struct row *row)
{
    uint32_t price = capped_price(round, bid, clearing_price);
    row->capacity += bid->capacity;
    for (unsigned y = 0; y < round->year_count; y++) {
        uint64_t value = value_in_year(round, bid, price, y);
        row->total[y] += value;
        COUNT(row->in_pounds[y] += (value + PENCE_TO_THE_POUND - 1) / PENCE_TO_THE_POUND);
    }
}

/* "budgets in the file stay in pounds and are compared a hundredfold".  Refusal 4
 * keeps the hundredfold far below 2^64. */
static uint64_t budget_in_pence(const struct pot *pot, unsigned y)
{
    return PENCE_TO_THE_POUND * pot->budget[y];
}

/* "fits if no year's total exceeds its budget; equal fits." */
static bool fits_the_budget(const struct round *round, const struct pot *pot, const struct row *row)
{
    for (unsigned y = 0; y < round->year_count; y++)
        if (row->total[y] > budget_in_pence(pot, y))
            return false;
    return true;
}

/* CR 5: "a cap on the summed capacity of its winners". */
static bool fits_the_cap(const struct pot *pot, const struct row *row)
{
    return pot->cap == NO_CAP || row->capacity <= pot->cap;
}

/* CR 5: "The first test and every trial also check the cap." */
static bool fits(const struct round *round, const struct pot *pot, const struct row *row)
{
    return fits_the_budget(round, pot, row) && fits_the_cap(pot, row);
}

#ifdef JUDGE_COUNT
static bool fits_in_pounds(const struct round *round, const struct pot *pot, const struct row *row)
{
    for (unsigned y = 0; y < round->year_count; y++)
        if (row->in_pounds[y] > pot->budget[y])
            return false;
    return fits_the_cap(pot, row);
}

/* Pennies that decided.  A year that fits is over by neither. */
static void count_pennies(const struct round *round, const struct pot *pot, const struct row *row,
                          enum judge_tested tested)
{
    bool by_pence = true, by_one_penny = true;
    for (unsigned y = 0; y < round->year_count; y++) {
        uint64_t budget = budget_in_pence(pot, y), total = row->total[y];
        by_pence = by_pence && total < budget + PENCE_TO_THE_POUND;
        by_one_penny = by_one_penny && total <= budget + 1;
    }
    bool fit = fits(round, pot, row), by_money = !fit && fits_the_cap(pot, row);
    judge_counts.over_by_less_than_a_pound[tested] += by_money && by_pence;
    judge_counts.over_by_one_penny[tested] += by_money && by_one_penny;
    judge_counts.fits_but_not_in_pounds[tested] += fit && !fits_in_pounds(round, pot, row);
}

static bool fails_for_the_cap_alone(const struct round *round, const struct pot *pot,
                                    const struct row *row)
{
    return !fits_the_cap(pot, row) && fits_the_budget(round, pot, row);
}

static void count_cap(const struct round *round, const struct pot *pot, const struct row *row,
                      enum judge_tested tested)
{
    bool money = fits_the_budget(round, pot, row), capacity = fits_the_cap(pot, row);
    judge_counts.fails_for_the_cap_alone[tested] += money && !capacity;
    judge_counts.fails_for_money_alone[tested] += !money && capacity;
    judge_counts.fails_for_both[tested] += !money && !capacity;
    judge_counts.equals_the_cap[tested] += money && row->capacity > 0 && row->capacity == pot->cap;
    judge_counts.over_the_cap_by_one[tested] += money && row->capacity == (uint64_t)pot->cap + 1;
}

static void count_tested(const struct round *round, const struct pot *pot, const struct row *row,
                         enum judge_tested tested)
{
    count_pennies(round, pot, row, tested);
    if (pot->cap != NO_CAP)
        count_cap(round, pot, row, tested);
}
#endif

/* ---- applications of a pot ---- */

static bool in_pot(const struct round *round, uint32_t application, unsigned pot)
{
    return round->technologies[round->applications[application].technology].pot == pot;
}

static bool silent(const struct application *application)
{
    return application->sealed_bids == 0;
}

/* An application as if it bid for its own capacity, year and days, at its
 * administrative price. */
static struct bid at_administrative_price(const struct round *round, uint32_t number)
{
    const struct application *application = &round->applications[number];
    struct bid bid = { 0 };
    bid.number = NO_BID;
    bid.application = number;
    bid.year = application->year;
    bid.days = application->days;
    bid.capacity = application->capacity;
    bid.price = round->technologies[application->technology].administrative[application->year];
    return bid;
}

/* ---- first test ---- */

/* "all a pot's applications, at their administrative prices".  Of a silent one
 * 02's CR 8 says: "The first test counts it as before, and in outcome 0 it
 * wins." */
static struct row administrative_row(const struct round *round, unsigned pot)
{
    struct row row = empty_row();
    for (unsigned i = 0; i < round->application_count; i++)
        if (in_pot(round, i, pot)) {
            struct bid own = at_administrative_price(round, i);
            add_to_sums(round, &own, own.price, &row);
        }
    return row;
}

static void set_pot_result(const struct round *round, struct pot_result *result,
                           enum outcome outcome, const struct row *row)
{
    result->outcome = outcome;
    for (unsigned d = 0; d < round->delivery_years; d++)
        result->price[d] = row->price[d];
    for (unsigned y = 0; y < round->year_count; y++)
        result->total[y] = row->total[y];
}

static void set_reasons_of_pot(const struct round *round, unsigned pot, enum reason reason,
                               struct clearing *clearing)
{
    for (unsigned i = 0; i < round->bid_count; i++)
        if (in_pot(round, round->bids[i].application, pot))
            clearing->bid_reasons[i] = reason;
}

/* The automatic reason: "0 where it had sealed bids". */
static uint32_t automatic_reason(const struct application *application, enum reason reason)
{
    return silent(application) ? reason : 0;
}

/* "In outcome 0 every clearing price is none, the totals are those at
 * administrative prices, and each application has won with bid 65,535 and its
 * administrative price." */
static void all_win_at_administrative_prices(const struct round *round, unsigned pot,
                                             const struct row *row, struct clearing *clearing)
{
    set_pot_result(round, &clearing->pots[pot], ADMINISTRATIVE, row);
    set_reasons_of_pot(round, pot, IN_OUTCOME_0, clearing);
    for (unsigned i = 0; i < round->application_count; i++)
        if (in_pot(round, i, pot)) {
            struct application_result *result = &clearing->applications[i];
            result->won = 1;
            result->bid = NO_BID;
            result->automatic_reason = automatic_reason(&round->applications[i], IN_OUTCOME_0);
            result->price = at_administrative_price(round, i).price;
        }
}

/* ---- the auction ---- */

/* The state of one pot. */
struct auction {
    const struct round *round;
    const struct pot *pot;
    unsigned bid_count;
    struct bid bids[MAX_BIDS];
    enum reason reasons[MAX_BIDS];
    bool application_won[MAX_APPLICATIONS];
    bool open[MAX_DELIVERY_YEARS];
    unsigned winner_count;
    unsigned winners[MAX_APPLICATIONS]; /* places in bids */
    struct row row;                     /* of the winners */
    uint32_t drawn;                     /* what is left of the pot's drawn number */
#ifdef JUDGE_COUNT
    unsigned draws;                     /* from two combinations or more */
    bool one_kept, tie_fitted, one_turned_down; /* so far */
    bool exceeds_cap[MAX_BIDS];         /* turned down alone for the cap alone */
    unsigned winners_before[MAX_BIDS];  /* winner_count when it was */
#endif
};

/* Some bids of the pot looked at together: at most one of an application, for
 * they have one price and 8 forbids an application to bid a price twice. */
struct taken {
    unsigned count;
    unsigned bids[MAX_APPLICATIONS]; /* places in auction.bids */
};

/* CR 8: "an application without a sealed bid takes no part in the auction". */
static void open_auction(const struct round *round, unsigned pot, struct auction *a)
{
    memset(a, 0, sizeof *a);
    a->round = round;
    a->pot = &round->pots[pot];
    a->row = empty_row();
    a->drawn = a->pot->drawn;
    for (unsigned d = 0; d < round->delivery_years; d++)
        a->open[d] = true;
    for (unsigned i = 0; i < round->bid_count; i++)
        if (in_pot(round, round->bids[i].application, pot))
            a->bids[a->bid_count++] = round->bids[i];
}

/* "Live bids are those not yet looked at, of an application that has not won,
 * in an open year." */
static bool live(const struct auction *a, unsigned i)
{
    const struct bid *bid = &a->bids[i];
    return a->reasons[i] == NOT_YET_LOOKED_AT && !a->application_won[bid->application]
        && a->open[bid->year];
}

/* "Take all live bids at the lowest live price." */
static struct taken take_lowest_live(const struct auction *a)
{
    struct taken taken = { 0 };
    uint32_t lowest = NO_PRICE;
    for (unsigned i = 0; i < a->bid_count; i++) {
        if (!live(a, i) || a->bids[i].price > lowest)
            continue;
        if (a->bids[i].price < lowest)
            taken.count = 0;
        lowest = a->bids[i].price;
        taken.bids[taken.count++] = i;
    }
    return taken;
}

/* "A trial adds bids to the winners, sets the clearing price of their years to
 * their price, revalues every winner" */
static struct row trial(const struct auction *a, const struct taken *taken)
{
    struct row row = a->row;
    for (unsigned i = 0; i < taken->count; i++) {
        const struct bid *bid = &a->bids[taken->bids[i]];
        row.price[bid->year] = bid->price;
    }
    empty_sums(&row);
    for (unsigned i = 0; i < a->winner_count; i++) {
        const struct bid *bid = &a->bids[a->winners[i]];
        add_to_sums(a->round, bid, row.price[bid->year], &row);
    }
    for (unsigned i = 0; i < taken->count; i++) {
        const struct bid *bid = &a->bids[taken->bids[i]];
        add_to_sums(a->round, bid, row.price[bid->year], &row);
    }
    return row;
}

static bool trial_fits(const struct auction *a, const struct row *row)
{
    return fits(a->round, a->pot, row);
}

/* The bids win, and what the trial set is kept. */
static void win(struct auction *a, const struct taken *taken, const struct row *row)
{
    for (unsigned i = 0; i < taken->count; i++) {
        unsigned bid = taken->bids[i];
        COUNT(uint32_t before = a->row.price[a->bids[bid].year];
              if (before != NO_PRICE && before < a->bids[bid].price)
                  judge_counts.revalued_winner++);
        a->reasons[bid] = WON;
        a->application_won[a->bids[bid].application] = true;
        a->winners[a->winner_count++] = bid;
    }
    a->row = *row;
}

#ifdef JUDGE_COUNT
/* Why the chain after the bid turned down last went no further. */
static void count_end_of_chain(const struct auction *a, unsigned turned_down,
                               const struct taken *next)
{
    const struct bid *bid = &a->bids[turned_down];
    unsigned own = MAX_BIDS;
    for (unsigned i = 0; i < a->bid_count; i++)
        if (live(a, i) && a->bids[i].application == bid->application
            && a->bids[i].year == bid->year
            && (own == MAX_BIDS || a->bids[i].price < a->bids[own].price))
            own = i;
    if (own == MAX_BIDS)
        judge_counts.chain_ended++;
    else if (a->bids[next->bids[0]].price == a->bids[own].price)
        judge_counts.chain_broken_same_price++;
    else if (next->count == 1 && a->bids[next->bids[0]].application == bid->application)
        judge_counts.chain_broken_other_year++;
    else
        judge_counts.chain_broken_other_application++;
}
#endif

/* "the sole next lowest live bid of the whole pot is of the same application
 * and year" */
static bool sole_and_of_same_application_and_year(const struct auction *a,
                                                  const struct taken *next, unsigned turned_down)
{
    if (next->count != 1)
        return false;
    const struct bid *bid = &a->bids[next->bids[0]];
    return bid->application == a->bids[turned_down].application
        && bid->year == a->bids[turned_down].year;
}

#ifdef JUDGE_COUNT
/* One bid that does not fit. */
static void count_turned_down(struct auction *a, unsigned bid, const struct row *row)
{
    uint32_t capacity = a->bids[bid].capacity;
    if (!fails_for_the_cap_alone(a->round, a->pot, row))
        return;
    a->exceeds_cap[bid] = true;
    a->winners_before[bid] = a->winner_count;
    judge_counts.larger_than_the_cap += capacity > a->pot->cap;
    judge_counts.within_the_cap_but_not_beside_winners += capacity <= a->pot->cap;
    judge_counts.looked_at_under_a_reached_cap += a->row.capacity > 0 && a->row.capacity == a->pot->cap;
}
#endif

/* 2. "If one bid alone was taken and does not fit, it is turned down. While the
 * sole next lowest live bid of the whole pot is of the same application and
 * year, look at it: if it fits it wins and the year closes; if not it is turned
 * down, and look again. Otherwise the year closes." */
static void turn_down_and_look_further(struct auction *a, unsigned bid, const struct row *tried)
{
    unsigned further_looks = 0;
    bool won = false;
    (void)tried;
    COUNT(count_turned_down(a, bid, tried); a->one_turned_down = true);
    a->reasons[bid] = TURNED_DOWN_ALONE;
    while (!won) {
        struct taken next = take_lowest_live(a);
        if (!sole_and_of_same_application_and_year(a, &next, bid)) {
            COUNT(count_end_of_chain(a, bid, &next));
            break;
        }
        further_looks++;
        struct row row = trial(a, &next);
        won = trial_fits(a, &row);
        COUNT(count_tested(a->round, a->pot, &row, JUDGE_ONE_BID));
        if (won) {
            win(a, &next, &row);
            continue;
        }
        COUNT(count_turned_down(a, next.bids[0], &row));
        a->reasons[next.bids[0]] = TURNED_DOWN_ALONE;
    }
    a->open[a->bids[bid].year] = false;
    COUNT(judge_counts.further_looks[further_looks < 3 ? further_looks : 3]++;
          judge_counts.chain_won_at[won ? further_looks : 0]++;
          judge_counts.chain_won_under_the_cap += won && a->exceeds_cap[bid]);
}

static uint32_t draw_of(const struct auction *a, unsigned bid)
{
    return a->round->applications[a->bids[bid].application].draw;
}

/* 3. "drop those that do not fit alone."  Those that remain are handed back in
 * the order of their draws, the lowest first. */
static struct taken remaining_of(const struct auction *a, const struct taken *taken)
{
    struct taken remaining = { 0 };
    for (unsigned i = 0; i < taken->count; i++) {
        struct taken alone = { 1, { taken->bids[i] } };
        struct row row = trial(a, &alone);
        COUNT(count_tested(a->round, a->pot, &row, JUDGE_ONE_OF_TIED));
        if (!trial_fits(a, &row))
            continue;
        unsigned place = remaining.count++;
        while (place > 0 && draw_of(a, remaining.bids[place - 1]) > draw_of(a, taken->bids[i])) {
            remaining.bids[place] = remaining.bids[place - 1];
            place--;
        }
        remaining.bids[place] = taken->bids[i];
    }
    return remaining;
}

/* "Each combination has a number: one binary place for each remaining bid, the
 * lowest draw highest." */
static struct taken combination(const struct taken *remaining, unsigned number)
{
    struct taken chosen = { 0 };
    for (unsigned i = 0; i < remaining->count; i++)
        if ((number >> (remaining->count - 1 - i)) & 1)
            chosen.bids[chosen.count++] = remaining->bids[i];
    return chosen;
}

#ifdef JUDGE_COUNT
/* What would be chosen if each value were rounded up to a whole pound. */
struct choice_in_pounds {
    unsigned number; /* 0: none */
    uint64_t total;
};

static void weigh_in_pounds(const struct auction *a, const struct row *row, unsigned number,
                            struct choice_in_pounds *best)
{
    uint64_t total = row->in_pounds[a->round->year_count - 1];
    if (total < best->total || !fits_in_pounds(a->round, a->pot, row))
        return;
    best->number = number;
    best->total = total;
}

/* A choice made under a cap, beside the other combinations. */
static void count_choice_under_cap(const struct auction *a, const struct taken *remaining,
                                   unsigned number)
{
    struct taken best = combination(remaining, number);
    struct row chosen = trial(a, &best);
    unsigned last = a->round->year_count - 1;
    bool dearer = false, equal = false, more_capacity = false;
    for (unsigned n = 1; n < 1u << remaining->count; n++) {
        struct taken other = combination(remaining, n);
        struct row row = trial(a, &other);
        bool exceeds = fails_for_the_cap_alone(a->round, a->pot, &row);
        dearer = dearer || (exceeds && row.total[last] > chosen.total[last]);
        equal = equal || (exceeds && row.total[last] == chosen.total[last] && n > number);
        more_capacity = more_capacity || (trial_fits(a, &row) && row.capacity > chosen.capacity
                                          && row.total[last] < chosen.total[last]);
    }
    judge_counts.tie_dearer_exceeds_the_cap += dearer;
    judge_counts.tie_equal_exceeds_the_cap += equal;
    judge_counts.tie_money_before_capacity += more_capacity;
}

static void count_choice(const struct auction *a, const struct taken *remaining, unsigned number,
                         const struct choice_in_pounds *in_pounds)
{
    struct taken chosen = combination(remaining, number);
    struct row row = trial(a, &chosen);
    bool another = number != in_pounds->number;
    judge_counts.tie_pounds_choose_another += another;
    judge_counts.tie_pounds_prefer_another += another && fits_in_pounds(a->round, a->pot, &row);
    if (a->pot->cap != NO_CAP && remaining->count <= TRIED_AGAIN)
        count_choice_under_cap(a, remaining, number);
}
#endif

/* "choose the fitting combination whose total in the last year of the file is
 * greatest; if none remain, none is chosen. Among equals, the one holding the
 * lowest-draw bid on which they differ", that is the largest number.  CR 5:
 * "Closest to the budget still means money." */
static unsigned largest_of_the_best(const struct auction *a, const struct taken *remaining)
{
    unsigned last = a->round->year_count - 1, best = 0;
    uint64_t best_total = 0;
#ifdef JUDGE_COUNT
    struct choice_in_pounds in_pounds = { 0, 0 };
    bool equals = false;
#endif
    for (unsigned number = 1; number < 1u << remaining->count; number++) {
        struct taken chosen = combination(remaining, number);
        struct row row = trial(a, &chosen);
        if (!trial_fits(a, &row))
            continue;
        COUNT(weigh_in_pounds(a, &row, number, &in_pounds));
        if (row.total[last] < best_total)
            continue;
        COUNT(equals = best > 0 && row.total[last] == best_total);
        best = number;
        best_total = row.total[last];
    }
    COUNT(judge_counts.tie_equal_totals += equals;
          judge_counts.wide_tie_equal_totals += equals && remaining->count >= WIDE;
          count_choice(a, remaining, best, &in_pounds));
    return best;
}

/* Every combination of those that remain, by its number: too much for a stack. */
struct weighed {
    unsigned count;
    bool fits[MAX_COMBINATIONS];
    uint64_t total[MAX_COMBINATIONS]; /* in the last year of the file */
};

static void weigh_all(const struct auction *a, const struct taken *remaining, struct weighed *all)
{
    unsigned last = a->round->year_count - 1;
    all->count = 1u << remaining->count;
    for (unsigned number = 0; number < all->count; number++) {
        struct taken some = combination(remaining, number);
        struct row row = trial(a, &some);
        all->fits[number] = trial_fits(a, &row);
        all->total[number] = row.total[last];
    }
}

/* "keep those to which no other tied bid can be added and still fit".  A bid that
 * was dropped fits beside none, so that only those that remain need be tried. */
static bool can_be_extended(const struct weighed *all, unsigned number)
{
    for (unsigned bid = 1; bid < all->count; bid <<= 1)
        if (!(number & bid) && all->fits[number | bid])
            return true;
    return false;
}

/* Some combinations "in order of combination number from the smallest". */
struct listed {
    unsigned count;
    unsigned number[MAX_COMBINATIONS];
};

/* "the best combinations": the fitting ones of the greatest total.  The empty one
 * fits, for it adds nothing to the winners. */
static void list_best(const struct weighed *all, struct listed *best)
{
    uint64_t greatest = 0;
    for (unsigned number = 0; number < all->count; number++)
        if (all->fits[number] && all->total[number] > greatest)
            greatest = all->total[number];
    best->count = 0;
    for (unsigned number = 0; number < all->count; number++)
        if (all->fits[number] && all->total[number] == greatest)
            best->number[best->count++] = number;
}

static void list_kept(const struct weighed *all, const struct listed *best, struct listed *kept)
{
    kept->count = 0;
    for (unsigned i = 0; i < best->count; i++)
        if (!can_be_extended(all, best->number[i]))
            kept->number[kept->count++] = best->number[i];
}

#ifdef JUDGE_COUNT
/* Why what is drawn cannot be extended by a bid that costs nothing in the last
 * year. */
static void count_why_kept(const struct auction *a, const struct taken *remaining,
                           const struct weighed *all, unsigned number)
{
    bool for_the_cap = false, for_money = false;
    for (unsigned bid = 1; bid < all->count; bid <<= 1) {
        struct taken more = combination(remaining, number | bid);
        struct row row = trial(a, &more);
        if ((number & bid) || all->total[number | bid] != all->total[number])
            continue;
        for_the_cap = for_the_cap || fails_for_the_cap_alone(a->round, a->pot, &row);
        for_money = for_money || fits_the_cap(a->pot, &row);
    }
    judge_counts.draw_kept_for_the_cap_alone += for_the_cap;
    judge_counts.draw_kept_for_money_alone += for_money;
}

/* Places and numbers of a draw from two or more. */
static void count_place(struct auction *a, const struct listed *kept)
{
    unsigned m = kept->count, place = a->drawn % m;
    judge_counts.draw_of_place_0 += place == 0;
    judge_counts.draw_of_the_last_place += place == m - 1;
    judge_counts.draw_of_a_place_between += place > 0 && place < m - 1;
    judge_counts.draw_by_number_0 += a->draws == 0 && a->pot->drawn == 0;
    judge_counts.draw_by_the_greatest_number += a->draws == 0 && a->pot->drawn == JUDGE_MAX_DRAWN;
    judge_counts.draw_beyond_m += a->drawn >= m;
    judge_counts.draw_by_a_number_divided += a->drawn != a->pot->drawn;
    judge_counts.draw_undivided_chooses_another += a->pot->drawn % m != place;
    judge_counts.draw_by_a_number_used_up += a->drawn == 0 && a->pot->drawn > 0;
    judge_counts.draw_third_of_a_pot += a->draws == 2;
    judge_counts.draw_after_one_kept += a->one_kept;
    judge_counts.tie_fits_before_a_draw += a->tie_fitted && a->draws == 0;
    judge_counts.one_bid_turned_down_before_a_draw += a->one_turned_down && a->draws == 0;
    judge_counts.draw_with_earlier_winners += a->winner_count > 0;
    judge_counts.draw_under_a_cap += a->pot->cap != NO_CAP;
    a->draws++;
}

/* A wide tie that is drawn from two or more. */
static void count_wide_draw(const struct auction *a, const struct listed *best, const struct listed *kept)
{
    unsigned m = kept->count, place = a->drawn % m;
    judge_counts.wide_draw++;
    judge_counts.wide_draw_from_more_than_252 += m > 252;
    judge_counts.wide_draw_best_not_kept += best->count > m;
    judge_counts.wide_draw_by_a_number_divided += a->drawn != a->pot->drawn;
    judge_counts.wide_draw_of_a_place_between += place > 0 && place < m - 1;
}

static void count_draw(struct auction *a, const struct taken *remaining, const struct weighed *all,
                       const struct listed *best, const struct listed *kept)
{
    unsigned m = kept->count, number = kept->number[a->drawn % m];
    judge_counting = false;
    unsigned of_01 = remaining->count <= TRIED_AGAIN ? largest_of_the_best(a, remaining)
                                                     : best->number[best->count - 1];
    judge_counting = true;
    judge_counts.draw_from[m < 3 ? m : 3]++;
    judge_counts.draw_from_252 += m == 252;
    judge_counts.draw_from_184756 += m == 184756;
    if (m > 1 && remaining->count >= WIDE)
        count_wide_draw(a, best, kept);
    judge_counts.draw_where_none_remain += remaining->count == 0;
    judge_counts.draw_best_not_kept += best->count > m;
    judge_counts.draw_01_chooses_one_not_last_kept += of_01 != kept->number[m - 1];
    if (m > 1) {
        judge_counts.draw_chooses_as_01 += number == of_01;
        judge_counts.draw_chooses_another_than_01 += number != of_01;
        judge_counts.draw_best_not_kept_would_move_it += best->number[a->drawn % best->count] != number;
        judge_counts.draw_at_no_cost_in_the_last_year += all->total[number] == all->total[0];
        count_why_kept(a, remaining, all, number);
        count_place(a, kept);
    }
    a->one_kept = a->one_kept || (m == 1 && a->draws == 0);
}
#endif

/* CR 6: "If there are m, in order of combination number from the smallest, take
 * the one at place (drawn number mod m), counting from 0, and go on with the
 * drawn number divided by m, the rest dropped." */
static unsigned draw_of_the_kept(struct auction *a, const struct taken *remaining)
{
    static struct weighed all;
    static struct listed best, kept;
    weigh_all(a, remaining, &all);
    list_best(&all, &best);
    list_kept(&all, &best, &kept);
    COUNT(count_draw(a, remaining, &all, &best, &kept));
    unsigned place = a->drawn % kept.count;
    a->drawn /= kept.count;
    return kept.number[place];
}

/* "Without drawn numbers the rule of 01 stands". */
static struct taken choose_combination(struct auction *a, const struct taken *remaining)
{
    COUNT(judge_counts.tie_none_remain += remaining->count == 0);
    if (a->round->with_drawn)
        return combination(remaining, draw_of_the_kept(a, remaining));
    return combination(remaining, largest_of_the_best(a, remaining));
}

#ifdef JUDGE_COUNT
static bool silent_in_auction(const struct auction *a, unsigned application)
{
    return silent(&a->round->applications[application])
        && in_pot(a->round, application, (unsigned)(a->pot - a->round->pots));
}

static bool lower_silent_draw(const struct auction *a, const struct taken *taken)
{
    for (unsigned s = 0; s < a->round->application_count; s++) {
        bool lower = silent_in_auction(a, s);
        for (unsigned i = 0; i < taken->count; i++)
            lower = lower && a->round->applications[s].draw < draw_of(a, taken->bids[i]);
        if (lower)
            return true;
    }
    return false;
}

/* How many would remain without the cap. */
static unsigned remaining_by_money(const struct auction *a, const struct taken *taken)
{
    unsigned count = 0;
    for (unsigned i = 0; i < taken->count; i++) {
        struct taken alone = { 1, { taken->bids[i] } };
        struct row row = trial(a, &alone);
        count += fits_the_budget(a->round, a->pot, &row);
    }
    return count;
}

static bool across_years(const struct auction *a, const struct taken *taken)
{
    for (unsigned i = 1; i < taken->count; i++)
        if (a->bids[taken->bids[i]].year != a->bids[taken->bids[0]].year)
            return true;
    return false;
}

/* Whether bids of a tie are alike in all that a trial makes of them, or in what
 * the last year costs. */
static bool alike(const struct auction *a, unsigned one, unsigned other, bool at_last)
{
    struct taken of_one = { 1, { one } }, of_other = { 1, { other } };
    struct row row = trial(a, &of_one), other_row = trial(a, &of_other);
    bool same = at_last || (a->bids[one].year == a->bids[other].year && row.capacity == other_row.capacity);
    for (unsigned y = at_last ? a->round->year_count - 1 : 0; y < a->round->year_count; y++)
        same = same && row.total[y] == other_row.total[y];
    return same;
}

static void count_kinds_of_a_wide_tie(const struct auction *a, const struct taken *remaining)
{
    unsigned last = a->round->year_count - 1, free = 0;
    bool all_alike = true, all_different = true;
    for (unsigned i = 0; i < remaining->count; i++) {
        const struct bid *bid = &a->bids[remaining->bids[i]];
        free += value_in_year(a->round, bid, capped_price(a->round, bid, bid->price), last) == 0;
        for (unsigned j = 0; j < i; j++) {
            all_alike = all_alike && alike(a, remaining->bids[i], remaining->bids[j], false);
            all_different = all_different && !alike(a, remaining->bids[i], remaining->bids[j], true);
        }
    }
    judge_counts.wide_tie_of_all_alike += all_alike;
    judge_counts.wide_tie_of_all_different += all_different;
    judge_counts.wide_tie_some_free_at_last += free > 0 && free < remaining->count;
}

static void count_wide_tie(const struct auction *a, const struct taken *taken, const struct taken *remaining)
{
    struct row row = trial(a, remaining);
    bool by_money = !fits_the_budget(a->round, a->pot, &row), by_cap = !fits_the_cap(a->pot, &row);
    judge_counts.wide_tie++;
    judge_counts.wide_tie_of_15_or_more += remaining->count >= 15;
    judge_counts.wide_tie_of_20 += remaining->count == 20;
    judge_counts.wide_tie_of_21_or_more_taken += taken->count > MAX_REMAINING;
    judge_counts.wide_tie_across_years += across_years(a, remaining);
    judge_counts.wide_tie_with_earlier_winners += a->winner_count > 0;
    judge_counts.wide_tie_but_for_the_cap += by_cap && !by_money;
    judge_counts.wide_tie_but_for_money += by_money && !by_cap && a->pot->cap != NO_CAP;
    judge_counts.wide_tie_by_01 += !a->round->with_drawn;
    count_kinds_of_a_wide_tie(a, remaining);
}

static void count_tie(const struct auction *a, const struct taken *taken, const struct taken *remaining)
{
    bool too_wide = remaining->count > MAX_REMAINING;
    judge_counts.tie[taken->count][remaining->count]++;
    judge_counts.tie_narrowed_by_the_cap += !too_wide && remaining_by_money(a, taken) > MAX_REMAINING;
    judge_counts.tie_with_earlier_winners += a->winner_count > 0;
    judge_counts.tie_beside_a_lower_silent_draw += lower_silent_draw(a, taken);
    judge_counts.tie_across_years += across_years(a, taken);
    judge_counts.too_wide_across_years += too_wide && across_years(a, remaining);
    judge_counts.too_wide_with_earlier_winners += too_wide && a->winner_count > 0;
    judge_counts.too_wide_beside_dropped_bids += too_wide && remaining->count < taken->count;
    if (remaining->count >= WIDE && !too_wide)
        count_wide_tie(a, taken, remaining);
}

/* A tie that was drawn from two or more. */
static void count_drawn_tie(const struct auction *a, const struct taken *taken, unsigned remaining)
{
    judge_counts.draw_beside_dropped_bids += remaining < taken->count;
    judge_counts.draw_across_years += across_years(a, taken);
}

static void count_open_after_tie(const struct auction *a, const struct taken *taken)
{
    for (unsigned i = 0; i < taken->count; i++)
        if (a->open[a->bids[taken->bids[i]].year]) {
            judge_counts.tie_left_a_taken_year_open++;
            return;
        }
}
#endif

/* 3. "If several were taken and do not fit, ... If more than 10 remain, outcome
 * 2" (answered as false) "... All others taken are turned down and their years
 * close."  CR 7: "Outcome 2 is from then on given for 21 or more." */
static bool break_tie(struct auction *a, const struct taken *taken)
{
    struct taken remaining = remaining_of(a, taken);
    COUNT(count_tie(a, taken, &remaining));
    if (remaining.count > MAX_REMAINING)
        return false;
#ifdef JUDGE_COUNT
    unsigned draws = a->draws;
#endif
    struct taken chosen = choose_combination(a, &remaining);
    COUNT(if (a->draws > draws) count_drawn_tie(a, taken, remaining.count));
    if (chosen.count > 0) {
        struct row row = trial(a, &chosen);
        COUNT(count_tested(a->round, a->pot, &row, JUDGE_TIED_BIDS));
        win(a, &chosen, &row);
    }
    for (unsigned i = 0; i < taken->count; i++) {
        unsigned bid = taken->bids[i];
        if (a->reasons[bid] == WON)
            continue;
        a->reasons[bid] = TURNED_DOWN_IN_TIE;
        a->open[a->bids[bid].year] = false;
    }
    COUNT(count_open_after_tie(a, taken));
    return true;
}

/* 1. "Take all live bids at the lowest live price. If together they fit, all
 * win."  "The pot ends when no bid is live". */
static enum outcome hold_auction(struct auction *a)
{
    for (;;) {
        struct taken taken = take_lowest_live(a);
        if (taken.count == 0)
            return AUCTION;
        struct row row = trial(a, &taken);
        COUNT(count_tested(a->round, a->pot, &row,
                           taken.count == 1 ? JUDGE_ONE_BID : JUDGE_TIED_BIDS));
        if (trial_fits(a, &row)) {
            COUNT(judge_counts.ties_that_fit[taken.count]++;
                  a->tie_fitted = a->tie_fitted || taken.count > 1;
                  judge_counts.tie_fits_in_a_drawn_file += a->round->with_drawn && taken.count > 1);
            win(a, &taken, &row);
        } else if (taken.count == 1) {
            turn_down_and_look_further(a, taken.bids[0], &row);
        } else if (!break_tie(a, &taken)) {
            return TIE;
        }
    }
}

/* "4 not looked at, its application won; 5 not looked at, otherwise" */
static enum reason final_reason(const struct auction *a, unsigned i)
{
    if (a->reasons[i] != NOT_YET_LOOKED_AT)
        return a->reasons[i];
    return a->application_won[a->bids[i].application] ? NOT_LOOKED_AT_APPLICATION_WON
                                                      : NOT_LOOKED_AT_OTHERWISE;
}

static struct application_result lost(const struct round *round, unsigned application,
                                      enum reason reason)
{
    struct application_result result = { 0, NO_BID, 0, 0 };
    result.automatic_reason = automatic_reason(&round->applications[application], reason);
    return result;
}

/* "outcome 2: no price, totals 0, no winner in this pot."  A silent application
 * "keeps 7 in outcome 2". */
static void none_wins(const struct round *round, unsigned pot, struct clearing *clearing)
{
    struct row row = empty_row();
    set_pot_result(round, &clearing->pots[pot], TIE, &row);
    set_reasons_of_pot(round, pot, IN_OUTCOME_2, clearing);
    for (unsigned i = 0; i < round->application_count; i++)
        if (in_pot(round, i, pot))
            clearing->applications[i] = lost(round, i, IN_OUTCOME_2);
}

#ifdef JUDGE_COUNT
static void count_winner(const struct auction *a, const struct bid *bid)
{
    const struct round *round = a->round;
    const struct technology *technology = technology_of(round, bid);
    struct row row = empty_row();
    add_to_sums(round, bid, a->row.price[bid->year], &row);
    bool zero = true, other_cap = false;
    for (unsigned y = 0; y < round->year_count; y++)
        zero = zero && row.total[y] == 0;
    for (unsigned d = bid->year + 1; d < round->delivery_years; d++)
        other_cap = other_cap || technology->administrative[d] != technology->administrative[bid->year];
    bool capped = technology->administrative[bid->year] < a->row.price[bid->year];
    judge_counts.zero_cost_winner += zero;
    judge_counts.capped_winner += capped;
    judge_counts.capped_winner_other_cap_later += capped && other_cap;
    judge_counts.won_in_later_year += bid->year > round->applications[bid->application].year;
    for (unsigned i = 0; i < a->bid_count; i++)
        if (a->bids[i].application == bid->application
            && (a->reasons[i] == TURNED_DOWN_ALONE || a->reasons[i] == TURNED_DOWN_IN_TIE)) {
            judge_counts.won_after_turned_down++;
            break;
        }
}

/* Silent ones that would win if they bid at their administrative price and were
 * looked at last. */
static void count_silent_that_would_fit(const struct auction *a)
{
    for (unsigned s = 0; s < a->round->application_count; s++) {
        if (!silent_in_auction(a, s))
            continue;
        struct bid own = at_administrative_price(a->round, s);
        uint32_t price = a->row.price[own.year];
        bool last = price == NO_PRICE || price <= own.price;
        if (!last || !a->open[own.year] || a->bid_count == MAX_BIDS)
            continue;
        struct auction with = *a;
        struct taken taken = { 1, { with.bid_count } };
        with.bids[with.bid_count++] = own;
        struct row row = trial(&with, &taken);
        judge_counts.silent_would_fit += trial_fits(&with, &row);
    }
}

/* Bids turned down for the cap alone after which a smaller one of another
 * application won, and what the winners' applications come to. */
static void count_winners_under_cap(const struct auction *a)
{
    uint64_t of_applications = 0;
    for (unsigned w = 0; w < a->winner_count; w++)
        of_applications += a->round->applications[a->bids[a->winners[w]].application].capacity;
    judge_counts.winners_within_the_cap_by_bids += of_applications > a->pot->cap;
    for (unsigned i = 0; i < a->bid_count; i++) {
        bool smaller = false;
        for (unsigned w = a->exceeds_cap[i] ? a->winners_before[i] : a->winner_count; w < a->winner_count; w++) {
            const struct bid *winner = &a->bids[a->winners[w]];
            smaller = smaller || (winner->application != a->bids[i].application
                                  && winner->capacity < a->bids[i].capacity);
        }
        judge_counts.smaller_won_later += smaller;
    }
}

static void count_years_closed(const struct auction *a)
{
    unsigned open = 0;
    for (unsigned d = 0; d < a->round->delivery_years; d++)
        open += a->open[d];
    judge_counts.closed_some_but_not_all += open > 0 && open < a->round->delivery_years;
}
#endif

/* "A winner is paid its year's clearing price capped at its administrative
 * price." */
static void set_winner(const struct auction *a, const struct bid *bid, struct clearing *clearing)
{
    struct application_result *result = &clearing->applications[bid->application];
    result->won = 1;
    result->bid = bid->number;
    result->price = capped_price(a->round, bid, a->row.price[bid->year]);
    COUNT(count_winner(a, bid));
}

/* CR 8: a silent application "is lost with automatic reason 8 in outcome 1". */
static void set_auction_result(const struct auction *a, unsigned pot, struct clearing *clearing)
{
    set_pot_result(a->round, &clearing->pots[pot], AUCTION, &a->row);
    COUNT(count_years_closed(a); count_silent_that_would_fit(a); clearing->draws[pot] = a->draws;
          if (a->pot->cap != NO_CAP) count_winners_under_cap(a));
    for (unsigned i = 0; i < a->bid_count; i++)
        clearing->bid_reasons[a->bids[i].number] = final_reason(a, i);
    for (unsigned i = 0; i < a->round->application_count; i++)
        if (in_pot(a->round, i, pot))
            clearing->applications[i] = lost(a->round, i, SILENT_IN_OUTCOME_1);
    for (unsigned i = 0; i < a->winner_count; i++)
        set_winner(a, &a->bids[a->winners[i]], clearing);
}

/* "Pots are cleared apart. If all a pot's applications, at their administrative
 * prices, fit its budget in every year, all win at those prices (outcome 0) and
 * no bid is looked at. A pot with no application is such a pot. Otherwise
 * outcome 1, by these steps." */
static void clear_pot(const struct round *round, unsigned pot, struct clearing *clearing)
{
    struct row row = administrative_row(round, pot);
    COUNT(count_tested(round, &round->pots[pot], &row, JUDGE_FIRST_TEST));
    if (fits(round, &round->pots[pot], &row)) {
        all_win_at_administrative_prices(round, pot, &row, clearing);
        return;
    }
    struct auction a;
    open_auction(round, pot, &a);
    if (hold_auction(&a) == TIE)
        none_wins(round, pot, clearing);
    else
        set_auction_result(&a, pot, clearing);
}

#ifdef JUDGE_COUNT
static void count_silent(const struct round *round, unsigned pot, const struct clearing *clearing)
{
    enum outcome outcome = clearing->pots[pot].outcome;
    unsigned silent_ones = 0, others = 0, winners = 0;
    struct row row = empty_row(); /* of the others at their administrative prices */
    for (unsigned i = 0; i < round->application_count; i++) {
        if (!in_pot(round, i, pot))
            continue;
        const struct application_result *result = &clearing->applications[i];
        struct bid own = at_administrative_price(round, i);
        bool is_silent = silent(&round->applications[i]);
        silent_ones += is_silent;
        others += !is_silent;
        winners += result->won;
        judge_counts.silent_won_in_outcome_0 += is_silent && outcome == ADMINISTRATIVE && result->won;
        if (!is_silent)
            add_to_sums(round, &own, own.price, &row);
    }
    judge_counts.silent_in_outcome_2 += outcome == TIE ? silent_ones : 0;
    judge_counts.silent_beside_a_winner += outcome == AUCTION && winners > 0 ? silent_ones : 0;
    judge_counts.auction_without_a_bid += outcome == AUCTION && others == 0;
    judge_counts.constrained_by_the_silent +=
        outcome != ADMINISTRATIVE && others > 0 && fits(round, &round->pots[pot], &row);
}

/* The capacity of a pot's winners: an application's own in outcome 0, and its
 * bid's in outcome 1. */
static uint64_t capacity_won(const struct round *round, unsigned pot, const struct clearing *clearing)
{
    uint64_t capacity = 0;
    for (unsigned i = 0; i < round->application_count; i++) {
        const struct application_result *result = &clearing->applications[i];
        if (in_pot(round, i, pot) && result->won)
            capacity += result->bid == NO_BID ? round->applications[i].capacity
                                              : round->bids[result->bid].capacity;
    }
    return capacity;
}

static void count_cap_of_pot(const struct round *round, unsigned pot, const struct clearing *clearing,
                             bool empty)
{
    uint32_t outcome = clearing->pots[pot].outcome, cap = round->pots[pot].cap;
    uint64_t capacity = capacity_won(round, pot, clearing);
    bool reached = capacity > 0 && capacity == cap;
    judge_counts.pot_without_a_cap += round->with_caps && cap == NO_CAP;
    judge_counts.cap_0_administrative += cap == 0 && empty && outcome == ADMINISTRATIVE;
    judge_counts.cap_0_auction += cap == 0 && outcome == AUCTION;
    judge_counts.cap_20000000 += cap == MAX_CAP;
    judge_counts.cap_reached_administrative += reached && outcome == ADMINISTRATIVE;
    judge_counts.cap_reached_auction += reached && outcome == AUCTION;
}

static void count_draws(const struct round *round, const struct clearing *clearing)
{
    bool two = false;
    for (unsigned p = 0; p < round->pot_count; p++) {
        judge_counts.drawn_outcome[clearing->pots[p].outcome]++;
        for (unsigned q = 0; q < p; q++)
            two = two || (clearing->draws[p] > 0 && clearing->draws[q] > 0
                          && round->pots[p].drawn != round->pots[q].drawn);
    }
    judge_counts.draws_in_two_pots += two;
}

static void count_clearing(const struct round *round, const struct clearing *clearing)
{
    if (round->with_drawn)
        count_draws(round, clearing);
    for (unsigned p = 0; p < round->pot_count; p++) {
        const struct pot_result *result = &clearing->pots[p];
        bool zero = false, equal = false, empty = true;
        for (unsigned i = 0; i < round->application_count; i++)
            empty = empty && !in_pot(round, i, p);
        for (unsigned y = 0; y < round->year_count; y++) {
            zero = zero || round->pots[p].budget[y] == 0;
            equal = equal || (result->total[y] == budget_in_pence(&round->pots[p], y)
                              && result->total[y] > 0);
        }
        judge_counts.outcome[result->outcome]++;
        judge_counts.outcome_of_empty_pot += empty;
        judge_counts.budget_0_administrative += zero && !empty && result->outcome == ADMINISTRATIVE;
        judge_counts.budget_0_auction += zero && result->outcome == AUCTION;
        judge_counts.budget_equals_total_administrative += equal && result->outcome == ADMINISTRATIVE;
        judge_counts.budget_equals_total_auction += equal && result->outcome == AUCTION;
        count_silent(round, p, clearing);
        count_cap_of_pot(round, p, clearing, empty);
    }
    for (unsigned i = 0; i < round->bid_count; i++)
        judge_counts.sealed_reason[clearing->bid_reasons[i]]++;
    for (unsigned i = 0; i < round->application_count; i++) {
        judge_counts.automatic_reason[clearing->applications[i].automatic_reason]++;
        judge_counts.bid_65534 += clearing->applications[i].bid == 65534;
    }
}
#endif

static void clear_round(const struct round *round, struct clearing *clearing)
{
    memset(clearing, 0, sizeof *clearing);
    for (unsigned p = 0; p < round->pot_count; p++)
        clear_pot(round, p, clearing);
    COUNT(count_clearing(round, clearing));
}

/* ---- the result ---- */

static void put(uint8_t **p, unsigned bytes, uint64_t n)
{
    for (unsigned i = 0; i < bytes; i++)
        *(*p)++ = (uint8_t)(n >> (8 * i));
}

/* "Pots: outcome 2, clearing price 4 for each delivery year (4,294,967,295 for
 * none), total 8 for each year." */
static void put_pots(const struct round *round, const struct clearing *clearing, uint8_t **p)
{
    put(p, 2, round->pot_count);
    for (unsigned i = 0; i < round->pot_count; i++) {
        put(p, 2, clearing->pots[i].outcome);
        for (unsigned d = 0; d < round->delivery_years; d++)
            put(p, 4, clearing->pots[i].price[d]);
        for (unsigned y = 0; y < round->year_count; y++)
            put(p, 8, clearing->pots[i].total[y]);
    }
}

/* "Applications: won 2 (1 or 0), bid 2 (... 65,535 none), automatic bid's reason
 * 2 (0 where it had sealed bids), price paid 4 (0 if lost)."  CR 8: "65,534 and
 * `auto` are no longer written." */
static void put_applications(const struct round *round, const struct clearing *clearing,
                             uint8_t **p)
{
    put(p, 2, round->application_count);
    for (unsigned i = 0; i < round->application_count; i++) {
        put(p, 2, clearing->applications[i].won);
        put(p, 2, clearing->applications[i].bid);
        put(p, 2, clearing->applications[i].automatic_reason);
        put(p, 4, clearing->applications[i].price);
    }
}

/* "Bids: reason 2." */
static void put_bids(const struct round *round, const struct clearing *clearing, uint8_t **p)
{
    put(p, 2, round->bid_count);
    for (unsigned i = 0; i < round->bid_count; i++)
        put(p, 2, clearing->bid_reasons[i]);
}

uint64_t judge_result_len(const uint8_t *file, uint64_t file_len)
{
    struct round round;
    return read_round(file, file_len, &round) == 0 ? result_needs(&round) : 0;
}

/* "Then 10, 11 (first such bid in the file), 12."
 * 12: "the lent result is too short"; "A refusal writes nothing." */
uint64_t judge_clear(const uint8_t *file, uint64_t file_len,
                     uint8_t *result, uint64_t result_len)
{
    struct round round;
    struct clearing clearing;
    uint64_t refused = read_round(file, file_len, &round);
    if (refused != 0)
        return refused;
    if (result_len < result_needs(&round))
        return refusal(12, 0);
    clear_round(&round, &clearing);
    put_pots(&round, &clearing, &result);
    put_applications(&round, &clearing, &result);
    put_bids(&round, &clearing, &result);
    return 0;
}

/* ---- the listing ---- */

struct listing {
    char *out;
    size_t cap, len;
    bool too_small;
};

__attribute__((format(printf, 2, 3)))
static void print(struct listing *l, const char *format, ...)
{
    char line[128];
    va_list arguments;
    va_start(arguments, format);
    int n = vsnprintf(line, sizeof line, format, arguments);
    va_end(arguments);
    if (n < 0 || (size_t)n >= sizeof line || l->cap - l->len < (size_t)n) {
        l->too_small = true;
        return;
    }
    memcpy(l->out + l->len, line, (size_t)n);
    l->len += (size_t)n;
}

/* "no price or bid as `-`" */
static void print_price(struct listing *l, uint32_t price)
{
    if (price == NO_PRICE)
        print(l, "-");
    else
        print(l, "%u", price);
}

/* "Year lines follow their pot line, one for each year of the file, with the
 * year's number, clearing price and total; a valuation-only year has no price."
 * "Outcomes print as administrative, auction, tie" */
static void print_pot(struct listing *l, const struct round *round, unsigned pot,
                      const struct pot_result *result)
{
    static const char *const outcomes[] = { "administrative", "auction", "tie" };
    print(l, "pot %u %s\n", pot, outcomes[result->outcome]);
    for (unsigned y = 0; y < round->year_count; y++) {
        print(l, "year %u price ", y);
        print_price(l, y < round->delivery_years ? result->price[y] : NO_PRICE);
        print(l, " total %llu\n", (unsigned long long)result->total[y]);
    }
}

/* "An application line has its number and, if it won, the price paid and the
 * bid."  "no price or bid as `-`" */
static void print_application(struct listing *l, unsigned number,
                              const struct application_result *result)
{
    if (!result->won)
        print(l, "application %u lost\n", number);
    else if (result->bid == NO_BID)
        print(l, "application %u won %u bid -\n", number, result->price);
    else
        print(l, "application %u won %u bid %u\n", number, result->price, result->bid);
}

static void print_clearing(struct listing *l, const struct round *round,
                           const struct clearing *clearing)
{
    for (unsigned p = 0; p < round->pot_count; p++)
        print_pot(l, round, p, &clearing->pots[p]);
    for (unsigned i = 0; i < round->application_count; i++)
        print_application(l, i, &clearing->applications[i]);
    for (unsigned i = 0; i < round->bid_count; i++)
        print(l, "bid %u reason %u\n", i, clearing->bid_reasons[i]);
}

/* "A refusal prints only `refused 7 at 120`, its number and offset." */
int judge_listing(const uint8_t *file, uint64_t file_len, char *out, size_t cap)
{
    struct round round;
    struct clearing clearing;
    struct listing l = { out, cap, 0, false };
    uint64_t refused = read_round(file, file_len, &round);
    if (refused != 0) {
        print(&l, "refused %u at %u\n", (unsigned)(refused >> 32), (unsigned)refused);
    } else {
        clear_round(&round, &clearing);
        print_clearing(&l, &round, &clearing);
    }
    return l.too_small ? -1 : (int)l.len;
}
