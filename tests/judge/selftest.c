/* The judge itself is held to all worked cases of document 01, in pence, to
 * totals within a penny of the budget, to what becomes of silence, to caps that
 * are reached and exceeded, to ties that are drawn, to wide ties and wider ones, to
 * every cut of round A, with a drawn number, with a cap and without, and to the
 * order of the refusals. */
#include "judge.h"
#include "make.h"

#undef NDEBUG
#include <assert.h>
#include <stdio.h>
#include <string.h>

/* ---- tiny rounds ---- */

struct round_file {
    uint8_t bytes[MAKE_CAPACITY];
    size_t len;
};

static void add(struct round_file *f, unsigned bytes, uint64_t n)
{
    for (unsigned i = 0; i < bytes; i++)
        f->bytes[f->len++] = (uint8_t)(n >> (8 * i));
}

static void set(struct round_file *f, size_t at, unsigned bytes, uint64_t n)
{
    for (unsigned i = 0; i < bytes; i++)
        f->bytes[at + i] = (uint8_t)(n >> (8 * i));
}

static uint64_t get(const uint8_t *p, unsigned bytes)
{
    uint64_t n = 0;
    for (unsigned i = 0; i < bytes; i++)
        n |= (uint64_t)p[i] << (8 * i);
    return n;
}

static void add_year(struct round_file *f, unsigned days, unsigned kind, unsigned tlm)
{
    add(f, 2, days);
    add(f, 2, kind);
    add(f, 2, tlm);
}

static void add_technology_year(struct round_file *f, uint32_t administrative, uint32_t reference,
                                unsigned load_factor)
{
    add(f, 4, administrative);
    add(f, 4, reference);
    add(f, 2, load_factor);
}

static void add_application(struct round_file *f, unsigned year, unsigned draw, uint32_t capacity)
{
    add(f, 2, 0);
    add(f, 2, year);
    add(f, 2, 365);
    add(f, 2, draw);
    add(f, 4, capacity);
    add(f, 8, 12345);
}

static void add_bid(struct round_file *f, unsigned application, unsigned year, uint32_t capacity,
                    uint32_t price)
{
    add(f, 2, application);
    add(f, 2, year);
    add(f, 2, 365);
    add(f, 4, capacity);
    add(f, 4, price);
}

/* "T1, T2 and F1 have year 0 alone, with round A's technology and 365 days." */
static struct round_file start_of_year_0_alone(uint64_t budget)
{
    struct round_file f = { .len = 0 };
    add(&f, 2, 1);
    add_year(&f, 365, 1, 0);
    add(&f, 2, 1);
    add(&f, 8, budget);
    add(&f, 2, 1);
    add(&f, 2, 0);
    add(&f, 2, 10000);
    add_technology_year(&f, 20000, 0, 10000);
    return f;
}

static struct round_file round_a(uint64_t budget_0, uint64_t budget_1)
{
    struct round_file f;
    f.len = make_round_a(f.bytes);
    set(&f, 16, 8, budget_0);
    set(&f, 24, 8, budget_1);
    return f;
}

/* The same round of one pot with a cap. */
static struct round_file with_cap(const struct round_file *f, uint32_t cap)
{
    struct round_file g = { .len = 0 };
    size_t years = (size_t)get(f->bytes, 2), count_at = 2 + 6 * years, cap_at = count_at + 2 + 8 * years;
    memcpy(g.bytes, f->bytes, cap_at);
    set(&g, count_at, 2, JUDGE_WITH_CAPS + 1);
    g.len = cap_at;
    add(&g, 4, cap);
    memcpy(g.bytes + g.len, f->bytes + cap_at, f->len - cap_at);
    g.len += f->len - cap_at;
    return g;
}

/* The same round of one pot with a cap and a drawn number. */
static struct round_file drawn(const struct round_file *f, uint32_t cap, uint32_t number)
{
    struct round_file g = with_cap(f, cap);
    size_t years = (size_t)get(f->bytes, 2), count_at = 2 + 6 * years, cap_at = count_at + 2 + 8 * years;
    set(&g, count_at, 2, JUDGE_WITH_CAPS + JUDGE_WITH_DRAWN + 1);
    g.len = cap_at + 4;
    add(&g, 4, number);
    memcpy(g.bytes + g.len, f->bytes + cap_at, f->len - cap_at);
    g.len += f->len - cap_at;
    return g;
}

static void lists(const struct round_file *f, const char *listing)
{
    char out[JUDGE_LISTING_CAP];
    int len = judge_listing(f->bytes, f->len, out, sizeof out);
    if (len < 0 || (size_t)len != strlen(listing) || memcmp(out, listing, (size_t)len) != 0) {
        fprintf(stderr, "expected:\n%sgot:\n%.*s", listing, len, out);
        assert(!"listing");
    }
    assert(judge_listing(f->bytes, f->len, out, (size_t)len) == len);
    assert(judge_listing(f->bytes, f->len, out, (size_t)len - 1) == -1);
}

static void refused(const struct round_file *f, uint64_t number, uint64_t offset)
{
    uint8_t result[JUDGE_MAX_RESULT], kept[JUDGE_MAX_RESULT];
    memset(result, 0xA5, sizeof result);
    memcpy(kept, result, sizeof kept);
    uint64_t answer = judge_clear(f->bytes, f->len, result, sizeof result);
    if (answer != (number << 32) + offset) {
        fprintf(stderr, "expected refused %llu at %llu, got %llu at %llu\n",
                (unsigned long long)number, (unsigned long long)offset,
                (unsigned long long)(answer >> 32), (unsigned long long)(uint32_t)answer);
        assert(!"refusal");
    }
    assert(memcmp(result, kept, sizeof kept) == 0);
    assert(judge_result_len(f->bytes, f->len) == 0);
}

/* ---- V1 to V5 ---- */

static void values(void)
{
    assert(judge_value(100000, 50000, 3000, 8760, 1000, 90, 10000) == 130217400);
    assert(judge_value(100000, 50000, 3000, 8760, 1001, 90, 10000) == 130347618);
    assert(judge_value(40000, 50000, 3000, 8760, 1000, 90, 10000) == 0);
    assert(judge_value(50000, 50000, 3000, 8760, 1000, 90, 10000) == 0);
    assert(judge_value(500000, 0, 10000, 24 * 366, 300000, 0, 10000) == 1317600000000u);
    assert(judge_value(100000, 50000, 3000, 0, 1000, 90, 10000) == 0);
    assert(judge_value(1, 0, 1, 24, 1, 9999, 1) == 1); /* rounded up */
    /* one over the reference, 1.00 MW, one hour: a tenth of a penny */
    assert(judge_value(1, 0, 10000, 10, 100, 0, 10000) == 1);
    assert(judge_value(1, 0, 10000, 11, 100, 0, 10000) == 2);
    assert(judge_value(1, 0, 10000, 1000, 100, 0, 10000) == JUDGE_PENCE_TO_THE_POUND);
    assert(judge_value(1, 0, 10000, 1001, 100, 0, 10000) == JUDGE_PENCE_TO_THE_POUND + 1);
}

/* One application at its administrative price with the least budget that pays
 * for it, and one pound less. */
static void value_in_a_round(uint32_t capacity, uint32_t price, uint32_t reference, unsigned load,
                             unsigned tlm, unsigned days, uint64_t value)
{
    uint64_t pounds = (value + JUDGE_PENCE_TO_THE_POUND - 1) / JUDGE_PENCE_TO_THE_POUND;
    for (unsigned less = 0; less <= (value > 0); less++) {
        struct round_file f = { .len = 0 };
        uint8_t result[64];
        add(&f, 2, 1);
        add_year(&f, days, 1, tlm);
        add(&f, 2, 1);
        add(&f, 8, pounds - less);
        add(&f, 2, 1);
        add(&f, 2, 0);
        add(&f, 2, 10000);
        add_technology_year(&f, price, reference, load);
        add(&f, 2, 1);
        add(&f, 2, 0);
        add(&f, 2, 0);
        add(&f, 2, days);
        add(&f, 2, 7);
        add(&f, 4, capacity);
        add(&f, 8, 0);
        add(&f, 2, 0);
        assert(judge_result_len(f.bytes, f.len) == 6 + 14 + 10);
        assert(judge_clear(f.bytes, f.len, result, sizeof result) == 0);
        assert(get(result, 2) == 1 && get(result + 2, 2) == less);
        assert(get(result + 8, 8) == (less ? 0 : value));
        assert(get(result + 18, 2) == 1u - less);
        assert(get(result + 22, 2) == (less ? 8 : 6));
    }
}

/* The last two are at a penny: exactly 100 times the budget fits, and one penny
 * more does not. */
static void values_in_rounds(void)
{
    value_in_a_round(1000, 100000, 50000, 3000, 90, 365, 130217400);
    value_in_a_round(1001, 100000, 50000, 3000, 90, 365, 130347618);
    value_in_a_round(1000, 40000, 50000, 3000, 90, 365, 0);
    value_in_a_round(1000, 50000, 50000, 3000, 90, 365, 0);
    value_in_a_round(300000, 500000, 0, 10000, 0, 366, 1317600000000u);
    value_in_a_round(250, 50000, 49990, 10000, 0, 365, 21900);
    value_in_a_round(8, 50000, 49990, 10000, 0, 365, 701);
}

/* ---- round A and A1 to A4 ---- */

static const char listing_of_a[] =
    "pot 0 auction\n"
    "year 0 price 4000 total 3504000\n"
    "year 1 price 5000 total 7884000\n"
    "application 0 won 4000 bid 0\n"
    "application 1 lost\n"
    "application 2 won 5000 bid 2\n"
    "bid 0 reason 1\n"
    "bid 1 reason 2\n"
    "bid 2 reason 1\n";

static const char listing_of_a1[] =
    "pot 0 auction\n"
    "year 0 price 6000 total 10512000\n"
    "year 1 price 5000 total 14892000\n"
    "application 0 won 6000 bid 0\n"
    "application 1 won 6000 bid 1\n"
    "application 2 won 5000 bid 2\n"
    "bid 0 reason 1\n"
    "bid 1 reason 1\n"
    "bid 2 reason 1\n";

static const char listing_of_a3[] =
    "pot 0 administrative\n"
    "year 0 price - total 35040000\n"
    "year 1 price - total 52560000\n"
    "application 0 won 20000 bid -\n"
    "application 1 won 20000 bid -\n"
    "application 2 won 20000 bid -\n"
    "bid 0 reason 6\n"
    "bid 1 reason 6\n"
    "bid 2 reason 6\n";

static void round_a_and_its_kin(void)
{
    struct round_file a = round_a(100000, 100000);
    lists(&a, listing_of_a);
    struct round_file a1 = round_a(105120, 148920);
    lists(&a1, listing_of_a1);
    struct round_file a2 = round_a(105120, 148919);
    lists(&a2, listing_of_a);
    struct round_file a3 = round_a(350400, 525600);
    lists(&a3, listing_of_a3);
    struct round_file a4 = round_a(350400, 525599);
    lists(&a4, listing_of_a1);
}

/* The bytes of round A's result, and what is left alone. */
static void result_of_a(void)
{
    static const uint8_t expected[] = {
        1, 0,
        1, 0, 0xA0, 0x0F, 0, 0, 0x88, 0x13, 0, 0,
        0x80, 0x77, 0x35, 0, 0, 0, 0, 0, 0xE0, 0x4C, 0x78, 0, 0, 0, 0, 0,
        3, 0,
        1, 0, 0, 0, 0, 0, 0xA0, 0x0F, 0, 0,
        0, 0, 0xFF, 0xFF, 0, 0, 0, 0, 0, 0,
        1, 0, 2, 0, 0, 0, 0x88, 0x13, 0, 0,
        3, 0, 1, 0, 2, 0, 1, 0,
    };
    struct round_file a = round_a(100000, 100000);
    uint8_t result[sizeof expected + 8];
    memset(result, 0xA5, sizeof result);
    assert(judge_result_len(a.bytes, a.len) == sizeof expected);
    assert(judge_clear(a.bytes, a.len, result, sizeof expected - 1) == (uint64_t)12 << 32);
    assert(judge_clear(a.bytes, a.len, NULL, 0) == (uint64_t)12 << 32);
    assert(result[0] == 0xA5);
    assert(judge_clear(a.bytes, a.len, result, sizeof result) == 0);
    assert(memcmp(result, expected, sizeof expected) == 0);
    for (unsigned i = 0; i < 8; i++)
        assert(result[sizeof expected + i] == 0xA5);
    assert(judge_clear(a.bytes, a.len, result, sizeof expected) == 0);
}

/* ---- T1, T2, F1 ---- */

static struct round_file tie(uint64_t budget)
{
    struct round_file f = start_of_year_0_alone(budget);
    add(&f, 2, 3);
    add_application(&f, 0, 5, 200);
    add_application(&f, 0, 3, 100);
    add_application(&f, 0, 4, 100);
    add(&f, 2, 3);
    add_bid(&f, 0, 0, 200, 4000);
    add_bid(&f, 1, 0, 100, 4000);
    add_bid(&f, 2, 0, 100, 4000);
    return f;
}

static struct round_file flexible(uint64_t budget)
{
    struct round_file f = start_of_year_0_alone(budget);
    add(&f, 2, 1);
    add_application(&f, 0, 0, 200);
    add(&f, 2, 2);
    add_bid(&f, 0, 0, 200, 6000);
    add_bid(&f, 0, 0, 100, 6001);
    return f;
}

static void ties_and_flexible_bid(void)
{
    struct round_file t1 = tie(105120);
    lists(&t1,
          "pot 0 auction\n"
          "year 0 price 4000 total 10512000\n"
          "application 0 won 4000 bid 0\n"
          "application 1 won 4000 bid 1\n"
          "application 2 lost\n"
          "bid 0 reason 1\n"
          "bid 1 reason 1\n"
          "bid 2 reason 3\n");
    struct round_file t2 = tie(105119);
    lists(&t2,
          "pot 0 auction\n"
          "year 0 price 4000 total 7008000\n"
          "application 0 lost\n"
          "application 1 won 4000 bid 1\n"
          "application 2 won 4000 bid 2\n"
          "bid 0 reason 3\n"
          "bid 1 reason 1\n"
          "bid 2 reason 1\n");
    struct round_file f1 = flexible(60000);
    lists(&f1,
          "pot 0 auction\n"
          "year 0 price 6001 total 5256876\n"
          "application 0 won 6001 bid 1\n"
          "bid 0 reason 2\n"
          "bid 1 reason 1\n");
}

/* ---- pennies ---- */

/* One-bid applications with draws 0, 1, ... in year 0 alone. */
static struct round_file one_bid_each(uint64_t budget, unsigned bids, const uint32_t *capacities,
                                      const uint32_t *prices)
{
    struct round_file f = start_of_year_0_alone(budget);
    add(&f, 2, bids);
    for (unsigned i = 0; i < bids; i++)
        add_application(&f, 0, i, capacities[i]);
    add(&f, 2, bids);
    for (unsigned i = 0; i < bids; i++)
        add_bid(&f, i, 0, capacities[i], prices[i]);
    return f;
}

/* At 6,010 each costs 52,647.60 pounds.  Rounded up to pounds the three would
 * exceed the first budget by a pound. */
static void three_that_pounds_turn_down(void)
{
    static const uint32_t capacities[] = { 100, 100, 100 }, prices[] = { 5990, 6000, 6010 };
    struct round_file all = one_bid_each(157943, 3, capacities, prices);
    lists(&all,
          "pot 0 auction\n"
          "year 0 price 6010 total 15794280\n"
          "application 0 won 6010 bid 0\n"
          "application 1 won 6010 bid 1\n"
          "application 2 won 6010 bid 2\n"
          "bid 0 reason 1\n"
          "bid 1 reason 1\n"
          "bid 2 reason 1\n");
    struct round_file two = one_bid_each(157942, 3, capacities, prices);
    lists(&two,
          "pot 0 auction\n"
          "year 0 price 6000 total 10512000\n"
          "application 0 won 6000 bid 0\n"
          "application 1 won 6000 bid 1\n"
          "application 2 lost\n"
          "bid 0 reason 1\n"
          "bid 1 reason 1\n"
          "bid 2 reason 2\n");
}

/* At a price of 10 a hundredth of a MW costs 87.6 pence: 2.50 MW cost exactly
 * 219 pounds, and 0.08 MW cost 7 pounds and, rounded up, a penny. */
static void one_bid_at_a_penny(void)
{
    static const struct { uint64_t budget; uint32_t capacity; unsigned total; } cases[] = {
        { 219, 250, 21900 }, { 218, 250, 0 }, { 8, 8, 701 }, { 7, 8, 0 },
    };
    static const uint32_t price = 10;
    for (size_t i = 0; i < sizeof cases / sizeof *cases; i++) {
        struct round_file f = one_bid_each(cases[i].budget, 1, &cases[i].capacity, &price);
        char expected[128];
        if (cases[i].total > 0)
            snprintf(expected, sizeof expected, "pot 0 auction\nyear 0 price 10 total %u\n"
                     "application 0 won 10 bid 0\nbid 0 reason 1\n", cases[i].total);
        else
            snprintf(expected, sizeof expected, "pot 0 auction\nyear 0 price - total 0\n"
                     "application 0 lost\nbid 0 reason 2\n");
        lists(&f, expected);
    }
}

/* Two tied for 1.25 MW, at 109.50 pounds each, cost exactly 219 pounds; 0.05 and
 * 0.03 MW, at 438 and 263 pence, a penny more than 7 pounds. */
static void tie_at_a_penny(void)
{
    static const struct { uint64_t budget; uint32_t capacities[2]; unsigned both, first; } cases[] = {
        { 219, { 125, 125 }, 21900, 0 }, { 218, { 125, 125 }, 0, 10950 },
        { 8, { 5, 3 }, 701, 0 }, { 7, { 5, 3 }, 0, 438 },
    };
    static const uint32_t prices[] = { 10, 10 };
    for (size_t i = 0; i < sizeof cases / sizeof *cases; i++) {
        struct round_file f = one_bid_each(cases[i].budget, 2, cases[i].capacities, prices);
        char expected[192];
        if (cases[i].both > 0)
            snprintf(expected, sizeof expected, "pot 0 auction\nyear 0 price 10 total %u\n"
                     "application 0 won 10 bid 0\napplication 1 won 10 bid 1\n"
                     "bid 0 reason 1\nbid 1 reason 1\n", cases[i].both);
        else
            snprintf(expected, sizeof expected, "pot 0 auction\nyear 0 price 10 total %u\n"
                     "application 0 won 10 bid 0\napplication 1 lost\n"
                     "bid 0 reason 1\nbid 1 reason 3\n", cases[i].first);
        lists(&f, expected);
    }
}

/* 263 pence against 88 and 176: the two come closer to 3 pounds.  In pounds both
 * would be 3, and the lowest draw would decide for the one. */
static void tie_closest_in_pence(void)
{
    static const uint32_t capacities[] = { 3, 1, 2 }, prices[] = { 10, 10, 10 };
    struct round_file f = one_bid_each(3, 3, capacities, prices);
    lists(&f,
          "pot 0 auction\n"
          "year 0 price 10 total 264\n"
          "application 0 lost\n"
          "application 1 won 10 bid 1\n"
          "application 2 won 10 bid 2\n"
          "bid 0 reason 3\n"
          "bid 1 reason 1\n"
          "bid 2 reason 1\n");
}

/* 64 applications of V5 have the greatest total there is: exactly their budget,
 * and a pound more than it.  Bids at the administrative price have it too. */
static void greatest_total(void)
{
    const uint64_t total = 84326400000000u, pounds = total / JUDGE_PENCE_TO_THE_POUND;
    for (unsigned less = 0; less < 2; less++) {
        struct round_file f = { .len = 0 };
        uint8_t result[JUDGE_MAX_RESULT];
        add(&f, 2, 1);
        add_year(&f, 366, 1, 0);
        add(&f, 2, 1);
        add(&f, 8, pounds - less);
        add(&f, 2, 1);
        add(&f, 2, 0);
        add(&f, 2, 10000);
        add_technology_year(&f, 500000, 0, 10000);
        add(&f, 2, JUDGE_MAX_APPLICATIONS);
        for (unsigned i = 0; i < JUDGE_MAX_APPLICATIONS; i++) {
            size_t start = f.len;
            add_application(&f, 0, i, 300000);
            set(&f, start + 4, 2, 366);
        }
        add(&f, 2, JUDGE_MAX_APPLICATIONS);
        for (unsigned i = 0; i < JUDGE_MAX_APPLICATIONS; i++) {
            size_t start = f.len;
            add_bid(&f, i, 0, 300000, 500000);
            set(&f, start + 4, 2, 366);
        }
        assert(judge_clear(f.bytes, f.len, result, sizeof result) == 0);
        assert(get(result + 2, 2) == (less ? 2 : 0));
        assert(get(result + 8, 8) == (less ? 0 : total));
    }
}

/* ---- silence ---- */

static void gives(const struct round_file *f, const uint8_t *expected, size_t len)
{
    uint8_t result[JUDGE_MAX_RESULT];
    assert(judge_result_len(f->bytes, f->len) == len);
    assert(judge_clear(f->bytes, f->len, result, len) == 0);
    for (size_t i = 0; i < len; i++)
        if (result[i] != expected[i]) {
            fprintf(stderr, "byte %zu: expected %u, got %u\n", i, expected[i], result[i]);
            assert(!"result");
        }
}

/* Two of 1.00 MW: one alone would fit 200,000 at the administrative 20,000, and
 * 350,400 both. */
static struct round_file two_applications(uint64_t budget)
{
    struct round_file f = start_of_year_0_alone(budget);
    add(&f, 2, 2);
    add_application(&f, 0, 0, 100);
    add_application(&f, 0, 1, 100);
    return f;
}

static void all_silent(void)
{
    static const uint8_t expected[] = {
        1, 0,
        1, 0, 0xFF, 0xFF, 0xFF, 0xFF, 0, 0, 0, 0, 0, 0, 0, 0,
        2, 0,
        0, 0, 0xFF, 0xFF, 8, 0, 0, 0, 0, 0,
        0, 0, 0xFF, 0xFF, 8, 0, 0, 0, 0, 0,
        0, 0,
    };
    struct round_file f = two_applications(200000);
    add(&f, 2, 0);
    gives(&f, expected, sizeof expected);
    lists(&f,
          "pot 0 auction\n"
          "year 0 price - total 0\n"
          "application 0 lost\n"
          "application 1 lost\n");
}

/* The lower draw of the silent one is of no help to it. */
static void silent_beside_a_winner(void)
{
    static const uint8_t expected[] = {
        1, 0,
        1, 0, 0x20, 0x4E, 0, 0, 0x80, 0x55, 0x0B, 0x01, 0, 0, 0, 0,
        2, 0,
        0, 0, 0xFF, 0xFF, 8, 0, 0, 0, 0, 0,
        1, 0, 0, 0, 0, 0, 0x20, 0x4E, 0, 0,
        1, 0, 1, 0,
    };
    struct round_file f = two_applications(200000);
    add(&f, 2, 1);
    add_bid(&f, 1, 0, 100, 20000);
    gives(&f, expected, sizeof expected);
    lists(&f,
          "pot 0 auction\n"
          "year 0 price 20000 total 17520000\n"
          "application 0 lost\n"
          "application 1 won 20000 bid 0\n"
          "bid 0 reason 1\n");
}

static void silent_in_outcome_0(void)
{
    static const uint8_t expected[] = {
        1, 0,
        0, 0, 0xFF, 0xFF, 0xFF, 0xFF, 0, 0xAB, 0x16, 0x02, 0, 0, 0, 0,
        2, 0,
        1, 0, 0xFF, 0xFF, 0, 0, 0x20, 0x4E, 0, 0,
        1, 0, 0xFF, 0xFF, 6, 0, 0x20, 0x4E, 0, 0,
        1, 0, 6, 0,
    };
    struct round_file f = two_applications(350400);
    add(&f, 2, 1);
    add_bid(&f, 0, 0, 100, 4000);
    gives(&f, expected, sizeof expected);
    lists(&f,
          "pot 0 administrative\n"
          "year 0 price - total 35040000\n"
          "application 0 won 20000 bid -\n"
          "application 1 won 20000 bid -\n"
          "bid 0 reason 6\n");
}

/* The silent one counts in the first test: its pound is the one that fails. */
static void silent_makes_the_first_test_fail(void)
{
    struct round_file f = two_applications(350399);
    add(&f, 2, 1);
    add_bid(&f, 0, 0, 100, 4000);
    lists(&f,
          "pot 0 auction\n"
          "year 0 price 4000 total 3504000\n"
          "application 0 won 4000 bid 0\n"
          "application 1 lost\n"
          "bid 0 reason 1\n");
}

/* Tied at the administrative price, and a silent application with the lowest
 * draw.  One fits, so that all tied remain. */
static struct round_file tied_and_one_silent(unsigned tied)
{
    struct round_file f = start_of_year_0_alone(200000);
    add(&f, 2, tied + 1);
    for (unsigned i = 0; i <= tied; i++)
        add_application(&f, 0, 100 - i, 100);
    add(&f, 2, tied);
    for (unsigned i = 0; i < tied; i++)
        add_bid(&f, i, 0, 100, 20000);
    return f;
}

static size_t put_application(uint8_t *p, unsigned won, unsigned bid, unsigned reason, unsigned price)
{
    const uint8_t record[10] = { (uint8_t)won, 0, (uint8_t)bid, (uint8_t)(bid >> 8), (uint8_t)reason, 0,
                                 (uint8_t)price, (uint8_t)(price >> 8), 0, 0 };
    memcpy(p, record, sizeof record);
    return sizeof record;
}

/* A silent application is none of those that remain in a tie: eleven are chosen
 * from, and twenty-one are outcome 2. */
static void silent_beside_a_tie(void)
{
    static const uint8_t last_wins[] = {
        1, 0, 1, 0, 0x20, 0x4E, 0, 0, 0x80, 0x55, 0x0B, 0x01, 0, 0, 0, 0
    };
    static const uint8_t none_wins[] = {
        1, 0, 2, 0, 0xFF, 0xFF, 0xFF, 0xFF, 0, 0, 0, 0, 0, 0, 0, 0
    };
    for (unsigned tied = 11; tied <= 21; tied += 10) {
        struct round_file f = tied_and_one_silent(tied);
        uint8_t expected[JUDGE_MAX_RESULT] = { 0 };
        bool wide = tied > JUDGE_MAX_REMAINING;
        size_t len = sizeof none_wins;
        memcpy(expected, wide ? none_wins : last_wins, len);
        expected[len] = (uint8_t)(tied + 1);
        len += 2;
        for (unsigned i = 0; i < tied; i++)
            len += i == tied - 1 && !wide ? put_application(expected + len, 1, i, 0, 20000)
                                          : put_application(expected + len, 0, 65535, 0, 0);
        len += put_application(expected + len, 0, 65535, wide ? 7 : 8, 0);
        expected[len] = (uint8_t)tied;
        len += 2;
        for (unsigned i = 0; i < tied; i++, len += 2)
            expected[len] = wide ? 7 : i == tied - 1 ? 1 : 3;
        gives(&f, expected, len);
    }
}

/* ---- caps ---- */

enum { PLENTY = 1000000 };

/* Two of 1.00 MW, with bids for so much of it. */
static struct round_file two_bids(uint64_t budget, uint32_t capacity, uint32_t second_price)
{
    struct round_file f = two_applications(budget);
    add(&f, 2, 2);
    add_bid(&f, 0, 0, capacity, 4000);
    add_bid(&f, 1, 0, capacity, second_price);
    return f;
}

static void caps_200_and_199(void)
{
    static const uint8_t all_win[] = {
        1, 0,
        0, 0, 0xFF, 0xFF, 0xFF, 0xFF, 0, 0xAB, 0x16, 0x02, 0, 0, 0, 0,
        2, 0,
        1, 0, 0xFF, 0xFF, 0, 0, 0x20, 0x4E, 0, 0,
        1, 0, 0xFF, 0xFF, 0, 0, 0x20, 0x4E, 0, 0,
        2, 0, 6, 0, 6, 0,
    };
    static const uint8_t one_wins[] = {
        1, 0,
        1, 0, 0xA0, 0x0F, 0, 0, 0x80, 0x77, 0x35, 0, 0, 0, 0, 0,
        2, 0,
        1, 0, 0, 0, 0, 0, 0xA0, 0x0F, 0, 0,
        0, 0, 0xFF, 0xFF, 0, 0, 0, 0, 0, 0,
        2, 0, 1, 0, 2, 0,
    };
    struct round_file f = two_bids(PLENTY, 100, 5000);
    struct round_file reached = with_cap(&f, 200), exceeded = with_cap(&f, 199), none = with_cap(&f, JUDGE_NO_CAP);
    gives(&f, all_win, sizeof all_win);
    gives(&none, all_win, sizeof all_win);
    gives(&reached, all_win, sizeof all_win);
    gives(&exceeded, one_wins, sizeof one_wins);
}

/* 3.00 MW would cost 105,120 and do not fit: of 2.00 MW for 70,080 each, the two
 * hold the lowest draw. */
static void t1_under_a_cap(void)
{
    static const uint8_t last_two_win[] = {
        1, 0,
        1, 0, 0xA0, 0x0F, 0, 0, 0, 0xEF, 0x6A, 0, 0, 0, 0, 0,
        3, 0,
        0, 0, 0xFF, 0xFF, 0, 0, 0, 0, 0, 0,
        1, 0, 1, 0, 0, 0, 0xA0, 0x0F, 0, 0,
        1, 0, 2, 0, 0, 0, 0xA0, 0x0F, 0, 0,
        3, 0, 3, 0, 1, 0, 1, 0,
    };
    struct round_file t1 = tie(105120), capped = with_cap(&t1, 250);
    gives(&capped, last_two_win, sizeof last_two_win);
}

/* The bids' reasons, a digit for each, at the end of the result. */
static void has_reasons(const struct round_file *f, const char *reasons)
{
    uint8_t result[JUDGE_MAX_RESULT];
    size_t bids = strlen(reasons);
    uint64_t len = judge_result_len(f->bytes, f->len);
    assert(judge_clear(f->bytes, f->len, result, sizeof result) == 0);
    assert(get(result + len - 2 * bids - 2, 2) == bids);
    for (size_t i = 0; i < bids; i++)
        if (get(result + len - 2 * bids + 2 * i, 2) != (uint64_t)(reasons[i] - '0')) {
            fprintf(stderr, "expected reasons %s, got %u at bid %u\n", reasons,
                    result[len - 2 * bids + 2 * i], (unsigned)i);
            assert(!"reasons");
        }
}

static void reasons_under_cap(const struct round_file *f, uint32_t cap, const char *reasons)
{
    struct round_file capped = with_cap(f, cap);
    has_reasons(&capped, reasons);
}

static void reasons_drawn(const struct round_file *f, uint32_t cap, uint32_t number, const char *reasons)
{
    struct round_file g = drawn(f, cap, number);
    has_reasons(&g, reasons);
}

/* Money and cap with just enough of both, and a pound or a hundredth of a MW
 * less: for the second bid, for two tied bids, and for each alone. */
static void cap_and_budget(void)
{
    static const struct { uint64_t budget; uint32_t cap, second_price; const char *reasons; } cases[] = {
        { 87600, 200, 5000, "11" }, { 87600, 199, 5000, "12" }, { 87599, 200, 5000, "12" },
        { 87599, 199, 5000, "12" }, { 87600, JUDGE_NO_CAP, 5000, "11" }, { 87600, JUDGE_MAX_CAP, 5000, "11" },
        { PLENTY, 100, 5000, "12" }, { PLENTY, 99, 5000, "25" }, { PLENTY, 0, 5000, "25" },
        { 35039, 100, 5000, "25" }, { 35039, 99, 5000, "25" },
        { 70080, 200, 4000, "11" }, { 70080, 199, 4000, "13" }, { 70079, 200, 4000, "13" },
        { 70079, 199, 4000, "13" }, { PLENTY, 100, 4000, "13" }, { PLENTY, 99, 4000, "33" },
        { 35039, 100, 4000, "33" }, { 35039, 99, 4000, "33" }, { PLENTY, 0, 4000, "33" },
    };
    for (size_t i = 0; i < sizeof cases / sizeof *cases; i++) {
        struct round_file f = two_bids(cases[i].budget, 100, cases[i].second_price);
        reasons_under_cap(&f, cases[i].cap, cases[i].reasons);
    }
}

/* T1: a pair that does not fit for the cap, for money, for both; and the first
 * bid, which does not fit alone. */
static void cap_and_budget_in_t1(void)
{
    static const struct { uint64_t budget; uint32_t cap; const char *reasons; } cases[] = {
        { PLENTY, 300, "113" }, { PLENTY, 299, "311" }, { 105119, 300, "311" }, { 105119, 299, "311" },
        { PLENTY, 200, "311" }, { PLENTY, 199, "313" }, { 70079, 200, "313" }, { 70079, 199, "313" },
        { PLENTY, 100, "313" }, { PLENTY, 99, "333" },
    };
    for (size_t i = 0; i < sizeof cases / sizeof *cases; i++) {
        struct round_file f = tie(cases[i].budget);
        reasons_under_cap(&f, cases[i].cap, cases[i].reasons);
    }
}

/* The first test sums the applications' capacities, a trial the bids'. */
static void capacity_of_the_bid(void)
{
    struct round_file f = two_bids(PLENTY, 90, 5000);
    reasons_under_cap(&f, 200, "66");
    reasons_under_cap(&f, 199, "11");
    reasons_under_cap(&f, 180, "11");
    reasons_under_cap(&f, 179, "12");
    struct round_file f1 = flexible(PLENTY);
    reasons_under_cap(&f1, 200, "66");
    reasons_under_cap(&f1, 199, "21");
    reasons_under_cap(&f1, 100, "21");
    reasons_under_cap(&f1, 99, "22");
    struct round_file short_of_money = flexible(52568);
    reasons_under_cap(&short_of_money, 199, "22");
}

/* Turned down for the cap, and year 0 closes; the smaller one of year 1 still
 * wins, and then the cap is reached, which closes nothing. */
static void cap_over_years(void)
{
    struct round_file f = round_a(PLENTY, PLENTY);
    set(&f, 142, 4, 60);   /* the second bid, 6,000 in year 0 */
    set(&f, 156, 4, 50);   /* the third bid, 5,000 in year 1 */
    set(&f, 146, 4, 4500); /* the second now comes before it */
    reasons_under_cap(&f, 150, "121");
    reasons_under_cap(&f, 160, "112");
    reasons_under_cap(&f, 210, "111");
    set(&f, 146, 4, 6000); /* the second comes last: the cap is reached before */
    reasons_under_cap(&f, 150, "121");
}

/* 1.10 MW for 100 days cost less than 1.00 MW for all: the money decides. */
static void cap_and_most_money(void)
{
    struct round_file f = start_of_year_0_alone(PLENTY);
    add(&f, 2, 2);
    add_application(&f, 0, 0, 110);
    add_application(&f, 0, 1, 100);
    add(&f, 2, 2);
    add_bid(&f, 0, 0, 110, 4000);
    set(&f, f.len - 10, 2, 100);
    add_bid(&f, 1, 0, 100, 4000);
    reasons_under_cap(&f, 209, "31");
    reasons_under_cap(&f, 110, "31");
    reasons_under_cap(&f, 99, "33");
}

/* Twelve and twenty-two tied, of whom three are smaller: with twenty-two, more than
 * 20 would remain without the cap.  Twelve are chosen from: 2.00 MW, or three times
 * 0.60, which cost less. */
static void cap_and_wide_tie(void)
{
    for (unsigned tied = 12; tied <= 22; tied += 10) {
        struct round_file f = start_of_year_0_alone(PLENTY);
        add(&f, 2, tied);
        for (unsigned i = 0; i < tied; i++)
            add_application(&f, 0, 100 - i, i < tied - 3 ? 200 : 60);
        add(&f, 2, tied);
        for (unsigned i = 0; i < tied; i++)
            add_bid(&f, i, 0, i < tied - 3 ? 200 : 60, 4000);
        bool wide = tied > JUDGE_MAX_REMAINING;
        reasons_under_cap(&f, 200, wide ? "7777777777777777777777" : "333333331333");
        reasons_under_cap(&f, 199, wide ? "3333333333333333333111" : "333333333111");
        reasons_under_cap(&f, 179, wide ? "3333333333333333333311" : "333333333311");
        reasons_under_cap(&f, 59, wide ? "3333333333333333333333" : "333333333333");
    }
}

/* ---- drawn numbers ---- */

/* The result of T1 or T2 where these applications win for such a total. */
static void t_drawn(uint64_t budget, uint32_t number, const char *reasons, uint32_t total)
{
    uint8_t expected[JUDGE_MAX_RESULT] = { 1, 0, 1, 0, 0xA0, 0x0F, 0, 0, (uint8_t)total, (uint8_t)(total >> 8),
                                           (uint8_t)(total >> 16), (uint8_t)(total >> 24), 0, 0, 0, 0, 3, 0 };
    size_t len = 18;
    for (unsigned i = 0; i < 3; i++)
        len += reasons[i] == '1' ? put_application(expected + len, 1, i, 0, 4000)
                                 : put_application(expected + len, 0, 65535, 0, 0);
    expected[len] = 3;
    len += 2;
    for (unsigned i = 0; i < 3; i++, len += 2)
        expected[len] = (uint8_t)(reasons[i] - '0');
    struct round_file t = tie(budget), f = drawn(&t, JUDGE_NO_CAP, number);
    gives(&f, expected, len);
}

static void t1_and_t2_drawn(void)
{
    t_drawn(105120, 0, "131", 10512000);
    t_drawn(105120, 1, "113", 10512000);
    t_drawn(105120, 2, "131", 10512000);
    t_drawn(105120, JUDGE_MAX_DRAWN, "113", 10512000);
    t_drawn(105119, 0, "133", 7008000);
    t_drawn(105119, 1, "311", 7008000);
    t_drawn(105119, 4294967294u, "133", 7008000);
    t_drawn(105119, JUDGE_MAX_DRAWN, "311", 7008000);
}

/* T1 with money enough, and a cap of 3.00, 2.99, 1.99 and 0.99 MW. */
static void t1_drawn_under_a_cap(void)
{
    struct round_file t = tie(PLENTY);
    reasons_drawn(&t, 300, 0, "131");
    reasons_drawn(&t, 300, 1, "113");
    reasons_drawn(&t, 299, 0, "133");
    reasons_drawn(&t, 299, 1, "311");
    reasons_drawn(&t, 199, 0, "331");
    reasons_drawn(&t, 199, 1, "313");
    reasons_drawn(&t, 99, 1, "333");
}

static void add_years_and_pot(struct round_file *f, const uint64_t *budgets)
{
    add(f, 2, 2);
    add_year(f, 365, 1, 0);
    add_year(f, 365, 1, 0);
    add(f, 2, 1);
    add(f, 8, budgets[0]);
    add(f, 8, budgets[1]);
    add(f, 2, 1);
    add(f, 2, 0);
    add(f, 2, 10000);
    add_technology_year(f, 20000, 0, 10000);
    add_technology_year(f, 20000, 0, 10000);
}

/* So many of 1.00 MW at 1,000 in year 0, then two at 1,100 in year 1; draws 0, 1,
 * and so on. */
static struct round_file two_ties(const uint64_t *budgets, unsigned first)
{
    struct round_file f = { .len = 0 };
    add_years_and_pot(&f, budgets);
    add(&f, 2, first + 2);
    for (unsigned i = 0; i < first + 2; i++)
        add_application(&f, i >= first, i, 100);
    add(&f, 2, first + 2);
    for (unsigned i = 0; i < first + 2; i++)
        add_bid(&f, i, i >= first, 100, i < first ? 1000 : 1100);
    return f;
}

/* Year 0 pays for one of its three, and year 1 for one of its two beside it. */
static void two_ties_drawn(void)
{
    static const uint64_t budgets[] = { 8760, 18396 };
    static const struct { uint32_t number; const char *reasons; } cases[] = {
        { 0, "33131" }, { 1, "31331" }, { 2, "13331" }, { 3, "33113" }, { 4, "31313" }, { 5, "13313" },
        { 6, "33131" }, { 7, "31331" }, { JUDGE_MAX_DRAWN, "33113" },
    };
    struct round_file f = two_ties(budgets, 3), g = drawn(&f, JUDGE_NO_CAP, 5);
    for (size_t i = 0; i < sizeof cases / sizeof *cases; i++)
        reasons_drawn(&f, JUDGE_NO_CAP, cases[i].number, cases[i].reasons);
    reasons_under_cap(&f, JUDGE_NO_CAP, "13313");
    lists(&g,
          "pot 0 auction\n"
          "year 0 price 1000 total 876000\n"
          "year 1 price 1100 total 1839600\n"
          "application 0 won 1000 bid 0\n"
          "application 1 lost\n"
          "application 2 lost\n"
          "application 3 won 1100 bid 3\n"
          "application 4 lost\n"
          "bid 0 reason 1\n"
          "bid 1 reason 3\n"
          "bid 2 reason 3\n"
          "bid 3 reason 1\n"
          "bid 4 reason 3\n");
}

/* Two that fit together in year 0 use none of the number, nor does one alone. */
static void drawn_after_what_fits(void)
{
    static const uint64_t both[] = { 17520, 27156 }, one[] = { 8760, 18396 };
    struct round_file f = two_ties(both, 2), g = two_ties(one, 1);
    for (uint32_t number = 0; number < 6; number++) {
        reasons_drawn(&f, JUDGE_NO_CAP, number, number % 2 == 0 ? "1131" : "1113");
        reasons_drawn(&g, JUDGE_NO_CAP, number, number % 2 == 0 ? "131" : "113");
    }
}

/* One best of two tied, or none that fits alone, or one turned down alone, and the
 * number stays as it is: year 0 pays for 2.00 MW at 1,000. */
static void drawn_after_one_best_or_none(void)
{
    static const uint64_t budgets[] = { 17520, 27156 };
    struct round_file f = two_ties(budgets, 2);
    set(&f, 68, 4, 200);  /* the first application, of 2.00 MW */
    set(&f, 148, 4, 200); /* and its bid */
    struct round_file none = f;
    set(&none, 24, 8, 9636);
    for (unsigned i = 0; i < 2; i++) {
        set(&none, 68 + 20 * i, 4, 300);
        set(&none, 148 + 14 * i, 4, 300);
    }
    struct round_file alone = none;
    set(&alone, 166, 4, 1050); /* the second bid comes when year 0 has closed */
    for (uint32_t number = 0; number < 6; number++) {
        reasons_drawn(&f, JUDGE_NO_CAP, number, number % 2 == 0 ? "1331" : "1313");
        reasons_drawn(&none, JUDGE_NO_CAP, number, number % 2 == 0 ? "3331" : "3313");
        reasons_drawn(&alone, JUDGE_NO_CAP, number, number % 2 == 0 ? "2531" : "2513");
    }
}

/* Tied at 4,000, before a last year whose reference is above that: every
 * combination that fits is best, and counts if none can be added. */
static struct round_file free_at_last(uint64_t budget, unsigned bids, const uint32_t *capacities)
{
    struct round_file f = { .len = 0 };
    add(&f, 2, 2);
    add_year(&f, 365, 1, 0);
    add_year(&f, 365, 0, 0);
    add(&f, 2, 1);
    add(&f, 8, budget);
    add(&f, 8, 0);
    add(&f, 2, 1);
    add(&f, 2, 0);
    add(&f, 2, 10000);
    add_technology_year(&f, 20000, 0, 10000);
    add_technology_year(&f, 0, 20000, 10000);
    add(&f, 2, bids);
    for (unsigned i = 0; i < bids; i++)
        add_application(&f, 0, i, capacities[i]);
    add(&f, 2, bids);
    for (unsigned i = 0; i < bids; i++)
        add_bid(&f, i, 0, capacities[i], 4000);
    return f;
}

static void last_year_at_no_cost(void)
{
    static const uint32_t alike[] = { 100, 100, 100 }, mixed[] = { 200, 100, 100 };
    static const char *const pairs[] = { "311", "131", "113" };
    struct round_file money = free_at_last(70080, 3, alike), cap = free_at_last(PLENTY, 3, alike);
    struct round_file t1 = free_at_last(105120, 3, mixed), t2 = free_at_last(105119, 3, mixed);
    for (uint32_t number = 0; number < 6; number++) {
        reasons_drawn(&money, JUDGE_NO_CAP, number, pairs[number % 3]);
        reasons_drawn(&money, 299, number, pairs[number % 3]);
        reasons_drawn(&cap, 200, number, pairs[number % 3]);
        reasons_drawn(&t1, JUDGE_NO_CAP, number, pairs[number % 3]);
        reasons_drawn(&t2, JUDGE_NO_CAP, number, number % 2 == 0 ? "311" : "133");
    }
    reasons_under_cap(&t1, JUDGE_NO_CAP, "113");
}

/* ---- beyond the worked cases: wide ties, valuation-only ---- */

static struct round_file tied_at_4000(unsigned applications)
{
    struct round_file f = start_of_year_0_alone(35040 * 2 + 35039);
    add(&f, 2, applications);
    for (unsigned i = 0; i < applications; i++)
        add_application(&f, 0, 100 - i, 100);
    add(&f, 2, applications);
    for (unsigned i = 0; i < applications; i++)
        add_bid(&f, i, 0, 100, 4000);
    return f;
}

/* The last two, of the lowest draws, win, and of twenty-one none. */
static void widest_ties(void)
{
    char out[JUDGE_LISTING_CAP];
    for (unsigned tied = 10; tied <= 11; tied++) {
        struct round_file f = tied_at_4000(tied);
        int len = judge_listing(f.bytes, f.len, out, sizeof out);
        static const char starts[] = "pot 0 auction\nyear 0 price 4000 total 7008000\napplication 0 lost\n";
        assert(len > 0 && memcmp(out, starts, sizeof starts - 1) == 0);
        out[len] = 0;
        assert(strstr(out, tied == 10 ? "application 7 lost\napplication 8 won 4000 bid 8\napplication 9 won 4000 bid 9\n"
                                      : "application 8 lost\napplication 9 won 4000 bid 9\napplication 10 won 4000 bid 10\n"));
    }
    struct round_file f = tied_at_4000(21);
    int len = judge_listing(f.bytes, f.len, out, sizeof out);
    static const char starts[] = "pot 0 tie\nyear 0 price - total 0\napplication 0 lost\n";
    assert(len > 0 && memcmp(out, starts, sizeof starts - 1) == 0);
    out[len] = 0;
    assert(strstr(out, "application 20 lost\nbid 0 reason 7\n"));
}

/* Ten alike, of which two fit: 45 pairs, from the two highest draws to the two
 * lowest; of eleven 55; twenty-one are too many. */
static void widest_draws(void)
{
    struct round_file ten = tied_at_4000(10), eleven = tied_at_4000(11), twenty_one = tied_at_4000(21);
    reasons_drawn(&ten, JUDGE_NO_CAP, 0, "1133333333");
    reasons_drawn(&ten, JUDGE_NO_CAP, 1, "1313333333");
    reasons_drawn(&ten, JUDGE_NO_CAP, 2, "3113333333");
    reasons_drawn(&ten, JUDGE_NO_CAP, 44, "3333333311");
    reasons_drawn(&ten, JUDGE_NO_CAP, 45, "1133333333");
    reasons_drawn(&eleven, JUDGE_NO_CAP, 0, "11333333333");
    reasons_drawn(&eleven, JUDGE_NO_CAP, 54, "33333333311");
    reasons_drawn(&eleven, JUDGE_NO_CAP, 55, "11333333333");
    reasons_drawn(&twenty_one, JUDGE_NO_CAP, 0, "777777777777777777777");
}

/* So many at 1,000, draws 0, 1, and so on, of 1.00 MW, for 8,760 each, but for the
 * last. */
static struct round_file tied_at_1000(unsigned tied, uint32_t last, uint64_t budget)
{
    uint32_t capacities[JUDGE_MAX_APPLICATIONS], prices[JUDGE_MAX_APPLICATIONS];
    for (unsigned i = 0; i < tied; i++) {
        capacities[i] = i < tied - 1 ? 100 : last;
        prices[i] = 1000;
    }
    return one_bid_each(budget, tied, capacities, prices);
}

/* Any five of eleven: 462, of which the smallest number holds the five highest
 * draws, and the largest, which 01 chooses, the five lowest. */
static void eleven_at_one_price(void)
{
    struct round_file f = tied_at_1000(11, 100, 43800);
    has_reasons(&f, "11111333333");
    reasons_under_cap(&f, JUDGE_NO_CAP, "11111333333");
    reasons_drawn(&f, JUDGE_NO_CAP, 461, "11111333333");
    reasons_drawn(&f, JUDGE_NO_CAP, 0, "33333311111");
    reasons_drawn(&f, JUDGE_NO_CAP, 1, "33333131111");
    reasons_drawn(&f, JUDGE_NO_CAP, 462, "33333311111");
    /* the cap takes the place of money: any four, 330 */
    reasons_drawn(&f, 499, 329, "11113333333");
    reasons_drawn(&f, 499, 330, "33333331111");
}

/* Any ten of twenty: 184,756.  One more that does not fit alone is taken with them
 * and dropped; one more that does is one too many.  The judge takes its time for
 * these, so they are two. */
static void twenty_at_one_price(void)
{
    struct round_file twenty = tied_at_1000(20, 100, 87600), one_dropped = tied_at_1000(21, 1001, 87600);
    struct round_file twenty_one = tied_at_1000(21, 100, 87600);
    reasons_drawn(&twenty, JUDGE_NO_CAP, 184755, "11111111113333333333");
    reasons_drawn(&one_dropped, JUDGE_NO_CAP, 184756, "333333333311111111113");
    has_reasons(&twenty_one, "777777777777777777777");
    reasons_drawn(&twenty_one, JUDGE_NO_CAP, 184755, "777777777777777777777");
}

static void valuation_only_year(void)
{
    struct round_file f = { .len = 0 };
    add(&f, 2, 2);
    add_year(&f, 365, 1, 0);
    add_year(&f, 366, 0, 0);
    add(&f, 2, 2);
    add(&f, 8, 100000);
    add(&f, 8, 43920);
    add(&f, 8, 0);
    add(&f, 8, 0);
    add(&f, 2, 1);
    add(&f, 2, 0);
    add(&f, 2, 10000);
    add_technology_year(&f, 20000, 0, 10000);
    add_technology_year(&f, 0, 0, 10000);
    add(&f, 2, 1);
    add_application(&f, 0, 0, 100);
    add(&f, 2, 1);
    add_bid(&f, 0, 0, 100, 5000);
    lists(&f,
          "pot 0 auction\n"
          "year 0 price 5000 total 4380000\n"
          "year 1 price - total 4392000\n"
          "pot 1 administrative\n"
          "year 0 price - total 0\n"
          "year 1 price - total 0\n"
          "application 0 won 5000 bid 0\n"
          "bid 0 reason 1\n");
}

/* ---- refusals ---- */

/* Round A: years at 0, pots at 14, technologies at 32, applications at 58, bids
 * at 120; 164 bytes. */
static void refusals_of_round_a(void)
{
    static const struct { size_t at; unsigned bytes; uint64_t n; unsigned number; size_t offset; } cases[] = {
        { 0, 2, 0, 2, 0 },      { 0, 2, 9, 2, 0 },      { 2, 2, 364, 3, 2 },
        { 10, 2, 2, 3, 8 },     { 12, 2, 10001, 3, 8 }, { 4, 2, 0, 3, 2 },
        { 14, 2, 0, 2, 14 },    { 14, 2, 5, 2, 14 },    { 24, 8, 1000000000001u, 4, 16 },
        { 32, 2, 0, 2, 32 },    { 32, 2, 33, 2, 32 },   { 34, 2, 1, 5, 34 },
        { 36, 2, 10001, 5, 34 },{ 38, 4, 0, 5, 34 },    { 38, 4, 500010, 5, 34 },
        { 48, 4, 15, 5, 34 },   { 42, 4, 500001, 5, 34 },{ 46, 2, 10001, 5, 34 },
        { 58, 2, 65, 2, 58 },   { 60, 2, 1, 6, 60 },    { 62, 2, 2, 6, 60 },
        { 64, 2, 0, 6, 60 },    { 64, 2, 366, 6, 60 },  { 66, 2, 1, 6, 80 },
        { 68, 4, 0, 6, 60 },    { 68, 4, 300001, 6, 60 },{ 120, 2, 257, 2, 120 },
        { 122, 2, 3, 7, 122 },  { 138, 2, 2, 7, 136 },  { 140, 2, 0, 7, 136 },
        { 140, 2, 366, 7, 136 },{ 142, 4, 0, 7, 136 },  { 142, 4, 101, 7, 136 },
        { 152, 2, 0, 7, 150 },  { 64, 2, 364, 7, 122 }, { 146, 4, 20001, 7, 136 },
        { 146, 4, 6001, 11, 136 }, { 120, 2, 4, 1, 164 }, { 120, 2, 2, 10, 150 },
    };
    for (size_t i = 0; i < sizeof cases / sizeof *cases; i++) {
        struct round_file f = round_a(100000, 100000);
        assert(f.len == 164);
        set(&f, cases[i].at, cases[i].bytes, cases[i].n);
        refused(&f, cases[i].number, cases[i].offset);
    }
}

/* With a cap: technologies at 36, and all that follows four bytes later too. */
static void refusals_of_round_a_with_cap(void)
{
    static const struct { size_t at; unsigned bytes; uint64_t n; unsigned number; size_t offset; } cases[] = {
        { 14, 2, 32768, 2, 14 },   { 14, 2, 32773, 2, 14 },   { 14, 2, 16385, 2, 14 },
        { 14, 2, 49152, 2, 14 },   { 14, 2, 65535, 2, 14 },   { 14, 2, 5, 2, 14 },
        { 14, 2, 49153, 2, 40 },   /* the count of technologies begins the drawn number */
        { 32, 4, 20000001, 4, 16 },{ 32, 4, 4294967294u, 4, 16 },
        { 24, 8, 1000000000001u, 4, 16 },
        { 14, 2, 1, 2, 32 },       /* the cap is then the count of technologies */
        { 14, 2, 32770, 4, 36 },   /* a budget is then made of technology 0 */
        { 36, 2, 0, 2, 36 },       { 62, 2, 65, 2, 62 },      { 124, 2, 257, 2, 124 },
    };
    static const uint32_t lawful[] = { 0, 1, 20000000, 4294967295u };
    for (size_t i = 0; i < sizeof cases / sizeof *cases; i++) {
        struct round_file f;
        f.len = make_round_a_with_cap(200, f.bytes);
        assert(f.len == 168);
        set(&f, cases[i].at, cases[i].bytes, cases[i].n);
        refused(&f, cases[i].number, cases[i].offset);
    }
    for (size_t i = 0; i < sizeof lawful / sizeof *lawful; i++) {
        struct round_file f;
        f.len = make_round_a_with_cap(lawful[i], f.bytes);
        assert(judge_result_len(f.bytes, f.len) == 6 + 26 + 30 + 6);
    }
    struct round_file f = round_a(100000, 100000);
    set(&f, 14, 2, 32769); /* without a cap: its four bytes are the next section's */
    refused(&f, 2, 36);
}

/* With a drawn number after the cap: technologies at 40, and all that follows eight
 * bytes later than without. */
static void refusals_of_round_a_drawn(void)
{
    static const struct { size_t at; unsigned bytes; uint64_t n; unsigned number; size_t offset; } cases[] = {
        { 14, 2, 16385, 2, 14 },   { 14, 2, 16388, 2, 14 },   { 14, 2, 16384, 2, 14 },
        { 14, 2, 49152, 2, 14 },   { 14, 2, 49157, 2, 14 },   { 14, 2, 65535, 2, 14 },
        { 14, 2, 32769, 2, 36 },   /* the drawn number is then the count of technologies */
        { 14, 2, 1, 2, 32 },       /* and so is the cap */
        { 32, 4, 20000001, 4, 16 },{ 32, 4, 4294967294u, 4, 16 },
        { 24, 8, 1000000000001u, 4, 16 },
        { 40, 2, 0, 2, 40 },       { 66, 2, 65, 2, 66 },      { 128, 2, 257, 2, 128 },
    };
    static const uint32_t lawful[] = { 0, 1, 20000001, 4294967294u, 4294967295u };
    for (size_t i = 0; i < sizeof cases / sizeof *cases; i++) {
        struct round_file f;
        f.len = make_round_a_drawn(200, 0, f.bytes);
        assert(f.len == 172);
        set(&f, cases[i].at, cases[i].bytes, cases[i].n);
        refused(&f, cases[i].number, cases[i].offset);
    }
    for (size_t i = 0; i < sizeof lawful / sizeof *lawful; i++) {
        struct round_file f;
        f.len = make_round_a_drawn(JUDGE_NO_CAP, lawful[i], f.bytes);
        lists(&f, listing_of_a);
    }
}

static void refused_by_1_where_cut(const struct round_file *whole, const size_t *starts)
{
    for (size_t len = 0; len < whole->len; len++) {
        struct round_file f = *whole;
        size_t i = 0;
        while (starts[i + 1] <= len)
            i++;
        f.len = len;
        refused(&f, 1, starts[i]);
    }
}

static void cuts_of_round_a(void)
{
    static const size_t starts[] = { 0, 2, 8, 14, 16, 32, 34, 58, 60, 80, 100, 120, 122, 136, 150, 164 };
    static const size_t capped_starts[] = { 0, 2, 8, 14, 16, 36, 38, 62, 64, 84, 104, 124, 126, 140, 154, 168 };
    static const size_t drawn_starts[] = { 0, 2, 8, 14, 16, 40, 42, 66, 68, 88, 108, 128, 130, 144, 158, 172 };
    struct round_file f = round_a(100000, 100000), capped = with_cap(&f, 200), g = drawn(&f, 200, 1);
    refused_by_1_where_cut(&f, starts);
    refused_by_1_where_cut(&capped, capped_starts);
    refused_by_1_where_cut(&g, drawn_starts);
    add(&f, 1, 0);
    refused(&f, 10, 164);
    lists(&f, "refused 10 at 164\n");
}

static struct round_file many_bids(unsigned bids)
{
    struct round_file f = start_of_year_0_alone(0);
    add(&f, 2, 1);
    add_application(&f, 0, 0, 200);
    add(&f, 2, bids);
    for (unsigned i = 0; i < bids; i++)
        add_bid(&f, 0, 0, 200, 4000 + 10 * i);
    return f;
}

/* "for bids 7, then 8, then 9" and then 10 and 11. */
static void order_of_refusals(void)
{
    struct round_file four = many_bids(4);
    size_t fourth = four.len - 14;
    refused(&four, 9, fourth);
    set(&four, fourth + 10, 4, 4000);
    refused(&four, 8, fourth);
    set(&four, fourth + 6, 4, 201);
    refused(&four, 7, fourth);
    four.len--;
    refused(&four, 1, fourth);
    struct round_file three = many_bids(3);
    set(&three, three.len - 4, 4, 3999);
    refused(&three, 11, three.len - 14);
    add(&three, 1, 0);
    refused(&three, 10, three.len - 1);
    struct round_file order = many_bids(2);
    set(&order, order.len - 4, 4, 4001); /* not the lowest: may be so */
    assert(judge_result_len(order.bytes, order.len) > 0);
}

static void largest_file(void)
{
    struct round_file f;
    uint8_t result[JUDGE_MAX_RESULT];
    f.len = make_largest(f.bytes);
    assert(f.len == JUDGE_MAX_FILE);
    assert(judge_result_len(f.bytes, f.len) == JUDGE_MAX_RESULT);
    assert(judge_clear(f.bytes, f.len, result, sizeof result) == 0);
}

static void drawn_ties(void)
{
    t1_and_t2_drawn();
    t1_drawn_under_a_cap();
    two_ties_drawn();
    drawn_after_what_fits();
    drawn_after_one_best_or_none();
    last_year_at_no_cost();
    widest_draws();
    eleven_at_one_price();
    twenty_at_one_price();
}

int main(void)
{
    values();
    values_in_rounds();
    round_a_and_its_kin();
    result_of_a();
    ties_and_flexible_bid();
    three_that_pounds_turn_down();
    one_bid_at_a_penny();
    tie_at_a_penny();
    tie_closest_in_pence();
    greatest_total();
    all_silent();
    silent_beside_a_winner();
    silent_in_outcome_0();
    silent_makes_the_first_test_fail();
    silent_beside_a_tie();
    caps_200_and_199();
    t1_under_a_cap();
    cap_and_budget();
    cap_and_budget_in_t1();
    capacity_of_the_bid();
    cap_over_years();
    cap_and_most_money();
    cap_and_wide_tie();
    drawn_ties();
    widest_ties();
    valuation_only_year();
    refusals_of_round_a();
    refusals_of_round_a_with_cap();
    refusals_of_round_a_drawn();
    cuts_of_round_a();
    order_of_refusals();
    largest_file();
    printf("selftest: all worked cases hold\n");
    return 0;
}
