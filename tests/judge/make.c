/* Makers of round files: a plan is drawn from the seed, legal by construction,
 * its budgets in pounds are set by what some of its bids would cost in pence,
 * its caps, if it has any, by the capacity of some, its drawn numbers are any,
 * and it is written out.
 * Damage works on the bytes of a well-formed round. */
#include "make.h"

#include "judge.h"

#include <stdbool.h>
#include <string.h>

/* ---- numbers from a seed ---- */

uint64_t rng_next(struct rng *rng)
{
    uint64_t z = (rng->state += 0x9E3779B97F4A7C15u);
    z = (z ^ (z >> 30)) * 0xBF58476D1CE4E5B9u;
    z = (z ^ (z >> 27)) * 0x94D049BB133111EBu;
    return z ^ (z >> 31);
}

uint64_t rng_below(struct rng *rng, uint64_t limit)
{
    return rng_next(rng) % limit;
}

int rng_chance(struct rng *rng, unsigned percent)
{
    return rng_below(rng, 100) < percent;
}

static unsigned between(struct rng *rng, unsigned least, unsigned most)
{
    return least + (unsigned)rng_below(rng, most - least + 1);
}

/* ---- the plan of a round ---- */

enum { MAX_Y = 8, MAX_D = 4, MAX_P = 4, MAX_T = 32, MAX_N = 64, MAX_B = 256 };
enum { MAX_ADMINISTRATIVE = 500000, MAX_CAPACITY = 300000, MAX_FACTOR = 10000 };
enum { PENCE_TO_THE_POUND = JUDGE_PENCE_TO_THE_POUND };
enum { WITH_CAPS = JUDGE_WITH_CAPS, WITH_DRAWN = JUDGE_WITH_DRAWN, MAX_CAP = JUDGE_MAX_CAP };
#define NO_CAP JUDGE_NO_CAP
#define MAX_DRAWN JUDGE_MAX_DRAWN
#define MAX_BUDGET 1000000000000u

struct plan_year {
    unsigned days, tlm;
};

struct plan_technology {
    unsigned pot, rqm;
    uint32_t administrative[MAX_Y], reference[MAX_Y];
    unsigned load_factor[MAX_Y];
};

struct plan_application {
    unsigned technology, year, days, draw;
    uint32_t capacity;
    uint64_t declared_cost;
};

struct plan_bid {
    unsigned application, year, days;
    uint32_t capacity, price;
};

struct plan {
    struct rng rng;
    unsigned years, delivery, pots, technologies, applications, bids;
    struct plan_year year[MAX_Y];
    uint64_t budget[MAX_P][MAX_Y]; /* in pounds */
    bool with_caps, with_drawn;
    uint32_t cap[MAX_P], drawn[MAX_P];
    struct plan_technology technology[MAX_T];
    struct plan_application application[MAX_N];
    struct plan_bid bid[MAX_B];
    uint32_t common;    /* the price many bid in a round of ties */
    unsigned most_tied; /* bids of a pot at one price */
};

enum flavour { ORDINARY, CHAINS, TIES, WIDE_TIES, SILENT, ZERO_COST, MANY_POTS, BIG, PENNIES, ALIKE };
enum capacities { EQUAL, SMALL, ANY, SKEWED, CLOSE };
/* A tie of up to 10, which the judge breaks in no time; one of more that may be
 * broken; and one that may not, of bids alike beside a few. */
enum width { NARROW, WIDE, TOO_WIDE };

/* What a flavour asks of the plan; percentages are chances per application. */
struct style {
    unsigned delivery, valuation_only, pots, technologies, applications;
    unsigned no_bid, common_price, chain, further_bids;
    unsigned dear;            /* one bid alone, at the administrative price */
    unsigned reference_above; /* chance per technology */
    unsigned same_technology; /* chance that technologies share prices */
    unsigned low_load;        /* chance per technology of values of a few pounds */
    unsigned alike;           /* bids as many others do, year by year */
    unsigned drawn;           /* chance of the round */
    unsigned most_tied;       /* bids of a pot at one price */
    unsigned few;             /* of a tie too wide: the others are alike */
    unsigned tied, dropped;   /* of a wide tie: so many remain, so many do not fit alone */
    enum capacities capacities;
    enum width width;
};

/* ---- years and technologies ---- */

static void plan_years(struct plan *plan, const struct style *style)
{
    struct rng *rng = &plan->rng;
    plan->delivery = style->delivery;
    plan->years = style->delivery + style->valuation_only;
    for (unsigned y = 0; y < plan->years; y++) {
        plan->year[y].days = rng_chance(rng, 25) ? 366 : 365;
        plan->year[y].tlm = rng_chance(rng, 50) ? 0 : between(rng, 0, 300);
        if (rng_chance(rng, 2))
            plan->year[y].tlm = rng_chance(rng, 50) ? MAX_FACTOR : between(rng, 0, MAX_FACTOR);
    }
}

static uint32_t some_administrative_price(struct plan *plan, uint32_t base)
{
    struct rng *rng = &plan->rng;
    if (rng_chance(rng, 1))
        return rng_chance(rng, 50) ? MAX_ADMINISTRATIVE : 10;
    if (rng_chance(rng, 60))
        return base;
    uint32_t price = base / 100 * between(rng, 60, 160) / 10 * 10;
    if (price < 10)
        return 10;
    return price > MAX_ADMINISTRATIVE ? MAX_ADMINISTRATIVE : price;
}

static uint32_t some_reference(struct plan *plan, const struct style *style, uint32_t base)
{
    struct rng *rng = &plan->rng;
    if (rng_chance(rng, style->reference_above)) {
        uint32_t above = base + (uint32_t)rng_below(rng, base);
        return above > 500000 ? 500000 : above;
    }
    if (rng_chance(rng, 50))
        return 0;
    return (uint32_t)rng_below(rng, base / 2 + 1);
}

static unsigned some_load_factor(struct plan *plan)
{
    static const unsigned usual[] = { 10000, 10000, 3000, 2860, 4770, 8050 };
    struct rng *rng = &plan->rng;
    if (rng_chance(rng, 2))
        return 0;
    return rng_chance(rng, 20) ? between(rng, 1, MAX_FACTOR) : usual[rng_below(rng, 6)];
}

/* So low that a hundredth of a MW more costs pennies. */
static void lower_load_factors(struct plan *plan, struct plan_technology *technology)
{
    unsigned load_factor = between(&plan->rng, 1, 4);
    for (unsigned y = 0; y < plan->years; y++)
        technology->load_factor[y] = load_factor;
}

static void plan_technology(struct plan *plan, const struct style *style, uint32_t base,
                            struct plan_technology *technology)
{
    struct rng *rng = &plan->rng;
    uint32_t administrative = some_administrative_price(plan, base);
    uint32_t reference = some_reference(plan, style, base);
    unsigned load_factor = some_load_factor(plan);
    technology->rqm = rng_chance(rng, 75) ? MAX_FACTOR : between(rng, 4000, MAX_FACTOR);
    if (rng_chance(rng, 1))
        technology->rqm = 0;
    for (unsigned y = 0; y < plan->years; y++) {
        bool same = rng_chance(rng, 60);
        technology->reference[y] = same ? reference : some_reference(plan, style, base);
        technology->load_factor[y] = same ? load_factor : some_load_factor(plan);
        technology->administrative[y] = 0;
        if (y < plan->delivery)
            technology->administrative[y] =
                same ? administrative : some_administrative_price(plan, base);
    }
    if (rng_chance(rng, style->low_load))
        lower_load_factors(plan, technology);
}

static uint32_t lowest_administrative_price(const struct plan *plan)
{
    uint32_t lowest = MAX_ADMINISTRATIVE;
    for (unsigned t = 0; t < plan->technologies; t++)
        for (unsigned d = 0; d < plan->delivery; d++)
            if (plan->technology[t].administrative[d] < lowest)
                lowest = plan->technology[t].administrative[d];
    return lowest;
}

static void plan_technologies(struct plan *plan, const struct style *style)
{
    struct rng *rng = &plan->rng;
    uint32_t base = 10 * between(rng, 1000, 20000);
    plan->pots = style->pots;
    plan->technologies = style->technologies;
    for (unsigned t = 0; t < plan->technologies; t++) {
        struct plan_technology *technology = &plan->technology[t];
        if (t > 0 && rng_chance(rng, style->same_technology))
            *technology = plan->technology[0];
        else
            plan_technology(plan, style, base, technology);
        technology->pot = t < plan->pots && rng_chance(rng, 90) ? t
                                                                : (unsigned)rng_below(rng, plan->pots);
    }
    uint32_t tens = lowest_administrative_price(plan) / 10;
    plan->common = 10 * (tens / 2 + (uint32_t)rng_below(rng, tens - tens / 2 + 1));
}

/* ---- applications ---- */

static uint32_t some_capacity(struct plan *plan, enum capacities capacities)
{
    struct rng *rng = &plan->rng;
    switch (capacities) {
    case EQUAL:
        return 100;
    case SMALL:
        return 100 * between(rng, 1, 4);
    case SKEWED:
        return rng_chance(rng, 50) ? between(rng, 90, 110) : between(rng, 500, 2000);
    case CLOSE:
        return between(rng, 1, 12);
    default:
        if (rng_chance(rng, 3))
            return rng_chance(rng, 50) ? MAX_CAPACITY : 1;
        return between(rng, 1, rng_chance(rng, 10) ? MAX_CAPACITY : 20000);
    }
}

static unsigned some_days(struct plan *plan, unsigned most)
{
    struct rng *rng = &plan->rng;
    if (rng_chance(rng, 65))
        return most;
    return rng_chance(rng, 10) ? 1 : between(rng, 1, most);
}

/* Draws: a shuffle of 0.. and now and then of numbers far apart. */
static void plan_draws(struct plan *plan)
{
    struct rng *rng = &plan->rng;
    unsigned stride = rng_chance(rng, 50) ? 1 : between(rng, 1, 1000);
    unsigned start = rng_chance(rng, 30) ? 65535 - stride * 63 : 0;
    for (unsigned i = 0; i < plan->applications; i++)
        plan->application[i].draw = start + stride * (63 - i);
    for (unsigned i = plan->applications; i > 1; i--) {
        unsigned j = (unsigned)rng_below(rng, i);
        unsigned draw = plan->application[i - 1].draw;
        plan->application[i - 1].draw = plan->application[j].draw;
        plan->application[j].draw = draw;
    }
}

static void plan_applications(struct plan *plan, const struct style *style)
{
    struct rng *rng = &plan->rng;
    plan->applications = style->applications;
    for (unsigned i = 0; i < plan->applications; i++) {
        struct plan_application *application = &plan->application[i];
        application->technology = (unsigned)rng_below(rng, plan->technologies);
        application->year = rng_chance(rng, 50) ? 0 : (unsigned)rng_below(rng, plan->delivery);
        application->days = some_days(plan, plan->year[application->year].days);
        application->capacity = some_capacity(plan, style->capacities);
        unsigned shift = between(rng, 0, 63);
        application->declared_cost = rng_next(rng) >> shift;
    }
    if (rng_chance(rng, style->alike))
        for (unsigned i = 0; i < plan->applications; i++)
            plan->application[i].days = plan->year[plan->application[i].year].days;
    if (style->width == TOO_WIDE)
        for (unsigned i = style->few + 1; i < plan->applications; i++)
            plan->application[i] = plan->application[style->few];
    for (unsigned i = style->tied; i < style->tied + style->dropped; i++) {
        plan->application[i] = plan->application[0];
        plan->application[i].capacity = MAX_CAPACITY;
    }
    plan_draws(plan);
}

/* ---- bids ---- */

static uint32_t administrative_of(const struct plan *plan, unsigned application, unsigned year)
{
    return plan->technology[plan->application[application].technology].administrative[year];
}

/* What the first test counts of an application. */
static struct plan_bid at_administrative_price(const struct plan *plan, unsigned application)
{
    const struct plan_application *own = &plan->application[application];
    struct plan_bid bid = { application, own->year, own->days, own->capacity,
                            administrative_of(plan, application, own->year) };
    return bid;
}

static bool price_is_free(const struct plan *plan, const struct plan_bid *bid)
{
    bool lower_in_year = false;
    for (unsigned i = 0; i < plan->bids; i++) {
        const struct plan_bid *other = &plan->bid[i];
        if (other->application != bid->application)
            continue;
        if (other->price == bid->price)
            return false;
        if (other->year == bid->year && other->price < bid->price)
            lower_in_year = true;
    }
    return bid->price % 10 == 0 || lower_in_year;
}

static unsigned bids_of(const struct plan *plan, unsigned application, unsigned year)
{
    unsigned count = 0;
    for (unsigned i = 0; i < plan->bids; i++)
        count += plan->bid[i].application == application
            && (year == MAX_Y || plan->bid[i].year == year);
    return count;
}

static bool of_pot(const struct plan *plan, unsigned application, unsigned pot)
{
    return plan->technology[plan->application[application].technology].pot == pot;
}

static unsigned bids_at_its_price(const struct plan *plan, const struct plan_bid *bid)
{
    unsigned count = 0, pot = plan->technology[plan->application[bid->application].technology].pot;
    for (unsigned i = 0; i < plan->bids; i++)
        count += plan->bid[i].price == bid->price && of_pot(plan, plan->bid[i].application, pot);
    return count;
}

/* Adds the bid if the round stays well-formed with it, and no wider a tie than it
 * may have. */
static void add_bid(struct plan *plan, struct plan_bid bid)
{
    uint32_t administrative = administrative_of(plan, bid.application, bid.year);
    if (bid.price > administrative)
        bid.price = administrative;
    if (plan->bids < MAX_B && price_is_free(plan, &bid)
        && bids_of(plan, bid.application, MAX_Y) < 10
        && bids_of(plan, bid.application, bid.year) < 3
        && bids_at_its_price(plan, &bid) < plan->most_tied)
        plan->bid[plan->bids++] = bid;
}

static unsigned some_bid_days(struct plan *plan, unsigned application, unsigned year)
{
    const struct plan_application *own = &plan->application[application];
    return some_days(plan, year == own->year ? own->days : plan->year[year].days);
}

static uint32_t some_bid_capacity(struct plan *plan, uint32_t most)
{
    return rng_chance(&plan->rng, 65) ? most : between(&plan->rng, 1, most);
}

/* Prices stand close together, near the common price, or anywhere. */
static uint32_t some_price(struct plan *plan, uint32_t administrative)
{
    struct rng *rng = &plan->rng;
    unsigned tens = between(rng, 0, 8);
    if (rng_chance(rng, 20))
        return 10 * (uint32_t)rng_below(rng, administrative / 10 + 1);
    if (rng_chance(rng, 10))
        return administrative;
    if (rng_chance(rng, 1))
        return 0;
    uint32_t price = plan->common + 10 * tens;
    return price > 40 ? price - 40 : price;
}

static void add_some_bid(struct plan *plan, unsigned application)
{
    struct rng *rng = &plan->rng;
    const struct plan_application *own = &plan->application[application];
    unsigned year = rng_chance(rng, 60) ? own->year : between(rng, own->year, plan->delivery - 1);
    uint32_t price = some_price(plan, administrative_of(plan, application, year));
    if (rng_chance(rng, 20))
        price += (uint32_t)rng_below(rng, 10);
    unsigned days = some_bid_days(plan, application, year);
    uint32_t capacity = some_bid_capacity(plan, own->capacity);
    struct plan_bid bid = { application, year, days, capacity, price };
    add_bid(plan, bid);
}

/* Two or three bids of one year close above each other, mostly for less each
 * time, and now and then one of another year in between. */
static void add_chain(struct plan *plan, unsigned application)
{
    static const uint32_t gaps[] = { 1, 3, 9, 10, 10, 20 };
    struct rng *rng = &plan->rng;
    const struct plan_application *own = &plan->application[application];
    unsigned year = rng_chance(rng, 70) ? own->year : between(rng, own->year, plan->delivery - 1);
    uint32_t gap = gaps[rng_below(rng, 6)];
    uint32_t price = plan->common - plan->common / 4 / 10 * 10 + 10 * between(rng, 0, 2);
    uint32_t capacity = own->capacity;
    unsigned links = between(rng, 2, 3);
    for (unsigned i = 0; i < links; i++) {
        struct plan_bid bid = { application, year, some_bid_days(plan, application, year),
                                capacity, price };
        add_bid(plan, bid);
        if (year + 1 < plan->delivery && rng_chance(rng, 15)) {
            struct plan_bid other = { application, year + 1,
                                      plan->year[year + 1].days, capacity, price / 10 * 10 + 10 };
            add_bid(plan, other);
        }
        price += gap;
        capacity -= (uint32_t)rng_below(rng, capacity / 4 * 3 + 1);
    }
}

/* A bid where another's chain stands: at the same price or in between. */
static void add_chain_breaker(struct plan *plan, unsigned application)
{
    struct rng *rng = &plan->rng;
    const struct plan_application *own = &plan->application[application];
    unsigned year = between(rng, own->year, plan->delivery - 1);
    uint32_t price = plan->common - plan->common / 4 / 10 * 10 + 10 * between(rng, 0, 3);
    unsigned days = some_bid_days(plan, application, year);
    uint32_t capacity = some_bid_capacity(plan, own->capacity);
    struct plan_bid bid = { application, year, days, capacity, price };
    add_bid(plan, bid);
}

static void add_common_bid(struct plan *plan, unsigned application)
{
    struct rng *rng = &plan->rng;
    const struct plan_application *own = &plan->application[application];
    unsigned year = rng_chance(rng, 70) ? own->year : between(rng, own->year, plan->delivery - 1);
    unsigned days = year == own->year ? own->days : plan->year[year].days;
    uint32_t capacity = own->capacity;
    if (rng_chance(rng, 20)) {
        days = some_bid_days(plan, application, year);
        capacity = some_bid_capacity(plan, own->capacity);
    }
    struct plan_bid bid = { application, year, days, capacity, plan->common };
    add_bid(plan, bid);
}

/* All of it at the common price of its year, which is a penny above that of the
 * year before, and mostly in the years after it as well: who loses a tie is tied
 * again. */
static void add_alike_bids(struct plan *plan, unsigned application)
{
    const struct plan_application *own = &plan->application[application];
    for (unsigned year = own->year; year < plan->delivery; year++) {
        struct plan_bid bid = { application, year, year == own->year ? own->days : plan->year[year].days,
                                own->capacity, plan->common + 10 * year };
        if (year == own->year || rng_chance(&plan->rng, 60))
            add_bid(plan, bid);
    }
}

static void shuffle_bids(struct plan *plan)
{
    for (unsigned i = plan->bids; i > 1; i--) {
        unsigned j = (unsigned)rng_below(&plan->rng, i);
        struct plan_bid bid = plan->bid[i - 1];
        plan->bid[i - 1] = plan->bid[j];
        plan->bid[j] = bid;
    }
}

static void add_bid_for_all_of_it(struct plan *plan, unsigned application, uint32_t price)
{
    const struct plan_application *own = &plan->application[application];
    struct plan_bid bid = { application, own->year, own->days, own->capacity, price };
    add_bid(plan, bid);
}

/* Tied, or beside the tie: cheaper, at the administrative price, or silent. */
static void add_bids_of_a_wide_tie(struct plan *plan, const struct style *style, unsigned application)
{
    struct rng *rng = &plan->rng;
    if (application < style->tied && style->alike > 0)
        add_alike_bids(plan, application);
    else if (application < style->tied)
        add_common_bid(plan, application);
    else if (application < style->tied + style->dropped)
        add_bid_for_all_of_it(plan, application, plan->common);
    else if (rng_chance(rng, 60))
        add_bid_for_all_of_it(plan, application, plan->common - plan->common / 4 / 10 * 10);
    else if (style->dropped == 0 && rng_chance(rng, 50))
        add_bid(plan, at_administrative_price(plan, application));
}

static void plan_bids(struct plan *plan, const struct style *style)
{
    struct rng *rng = &plan->rng;
    plan->most_tied = style->most_tied;
    for (unsigned i = 0; i < plan->applications; i++) {
        if (style->width == WIDE) {
            add_bids_of_a_wide_tie(plan, style, i);
            continue;
        }
        if (style->width == TOO_WIDE && i >= style->few) {
            add_bid_for_all_of_it(plan, i, plan->common);
            continue;
        }
        if (rng_chance(rng, style->dear)) {
            add_bid(plan, at_administrative_price(plan, i));
            continue;
        }
        if (rng_chance(rng, style->no_bid))
            continue;
        if (rng_chance(rng, style->alike)) {
            add_alike_bids(plan, i);
            continue;
        }
        if (rng_chance(rng, style->chain))
            add_chain(plan, i);
        else if (rng_chance(rng, style->chain))
            add_chain_breaker(plan, i);
        if (rng_chance(rng, style->common_price))
            add_common_bid(plan, i);
        unsigned further = (unsigned)rng_below(rng, style->further_bids + 1);
        if (rng_chance(rng, 3))
            further = 14;
        for (unsigned b = 0; b < further; b++)
            add_some_bid(plan, i);
    }
    if (rng_chance(rng, 60))
        shuffle_bids(plan);
}

/* ---- budgets ---- */

/* The bids of one pot from the lowest price up. */
struct stack {
    unsigned count;
    struct plan_bid bid[MAX_B];
};

static void put_on_stack(struct stack *stack, struct plan_bid bid)
{
    unsigned place = stack->count++;
    while (place > 0 && stack->bid[place - 1].price > bid.price) {
        stack->bid[place] = stack->bid[place - 1];
        place--;
    }
    stack->bid[place] = bid;
}

static void stack_of_pot(const struct plan *plan, unsigned pot, struct stack *stack)
{
    stack->count = 0;
    for (unsigned i = 0; i < plan->bids; i++)
        if (of_pot(plan, plan->bid[i].application, pot))
            put_on_stack(stack, plan->bid[i]);
}

static void add_cost(const struct plan *plan, const struct plan_bid *bid, uint32_t price,
                     uint64_t *totals)
{
    const struct plan_technology *technology =
        &plan->technology[plan->application[bid->application].technology];
    uint32_t cap = technology->administrative[bid->year];
    for (unsigned y = bid->year; y < plan->years; y++)
        totals[y] += judge_value(price < cap ? price : cap, technology->reference[y],
                                 technology->load_factor[y],
                                 24 * (y == bid->year ? bid->days : plan->year[y].days),
                                 bid->capacity, plan->year[y].tlm, technology->rqm);
}

/* Some bids that would win together: the lowest so many, then one a little
 * dearer or a few of those tied with it. */
struct choice {
    unsigned count;
    bool taken[MAX_N];
    struct plan_bid bid[MAX_N];
};

static void choose(struct choice *choice, const struct plan_bid *bid)
{
    if (choice->taken[bid->application])
        return;
    choice->taken[bid->application] = true;
    choice->bid[choice->count++] = *bid;
}

static void choice_totals(const struct plan *plan, const struct choice *choice, uint64_t *totals)
{
    uint32_t price[MAX_D] = { 0 };
    for (unsigned i = 0; i < choice->count; i++)
        if (choice->bid[i].price > price[choice->bid[i].year])
            price[choice->bid[i].year] = choice->bid[i].price;
    memset(totals, 0, MAX_Y * sizeof *totals);
    for (unsigned i = 0; i < choice->count; i++)
        add_cost(plan, &choice->bid[i], price[choice->bid[i].year], totals);
}

/* The first bid on the stack of this bid's application and year. */
static unsigned head_of_chain(const struct stack *stack, unsigned bid)
{
    for (unsigned i = 0; i < bid; i++)
        if (stack->bid[i].application == stack->bid[bid].application
            && stack->bid[i].year == stack->bid[bid].year)
            return i;
    return bid;
}

/* The bids before a chain's head, then a later bid of the chain. */
static void choose_chain(struct plan *plan, const struct stack *stack, struct choice *choice)
{
    unsigned later = (unsigned)rng_below(&plan->rng, stack->count);
    unsigned head = head_of_chain(stack, later);
    choice->taken[stack->bid[later].application] = true;
    for (unsigned i = 0; i < head; i++)
        choose(choice, &stack->bid[i]);
    choice->taken[stack->bid[later].application] = false;
    choose(choice, &stack->bid[later]);
}

/* Of those tied with this bid, some; mostly none for a greater capacity. */
static void choose_tied(struct plan *plan, const struct stack *stack, unsigned bid,
                        struct choice *choice)
{
    static const unsigned chances[] = { 15, 50, 90 };
    struct rng *rng = &plan->rng;
    unsigned chance = chances[rng_below(rng, 3)];
    bool smaller = rng_chance(rng, 65);
    for (unsigned i = 0; i < stack->count; i++)
        if (stack->bid[i].price == stack->bid[bid].price
            && !(smaller && stack->bid[i].capacity > stack->bid[bid].capacity)
            && (i == bid || rng_chance(rng, chance)))
            choose(choice, &stack->bid[i]);
}

static void choose_some(struct plan *plan, const struct stack *stack, struct choice *choice)
{
    struct rng *rng = &plan->rng;
    memset(choice, 0, sizeof *choice);
    if (stack->count > 0 && rng_chance(rng, 35)) {
        choose_chain(plan, stack, choice);
        return;
    }
    unsigned lowest = (unsigned)rng_below(rng, stack->count + 1);
    if (lowest == stack->count) {
        for (unsigned i = 0; i < lowest; i++)
            choose(choice, &stack->bid[i]);
        return;
    }
    unsigned left = stack->count - lowest;
    unsigned dearer = lowest + (unsigned)rng_below(rng, left < 4 ? left : 4);
    for (unsigned i = 0; i < lowest && stack->bid[i].price < stack->bid[dearer].price; i++)
        choose(choice, &stack->bid[i]);
    choose_tied(plan, stack, dearer, choice);
}

/* The least budgets that the totals fit.  One pound less is the total rounded
 * down, or short of it by a whole pound where pounds and pence are equal. */
static void pounds_for(const struct plan *plan, const uint64_t *totals, uint64_t *budget)
{
    for (unsigned y = 0; y < plan->years; y++)
        budget[y] = (totals[y] + PENCE_TO_THE_POUND - 1) / PENCE_TO_THE_POUND;
}

static void one_pound_less(uint64_t *budget)
{
    *budget -= *budget > 0;
}

static void vary_budget(struct plan *plan, uint64_t *budget)
{
    struct rng *rng = &plan->rng;
    unsigned y = (unsigned)rng_below(rng, plan->years);
    switch (rng_below(rng, 6)) {
    case 0:
    case 1:
        return;
    case 2:
        one_pound_less(&budget[y]);
        return;
    case 3:
        budget[y] += 1;
        return;
    default:
        for (unsigned i = 0; i < plan->years; i++)
            budget[i] = budget[i] * between(rng, 90, 160) / 100;
    }
}

static void add_at_administrative_price(const struct plan *plan, unsigned application,
                                        uint64_t *totals)
{
    struct plan_bid own = at_administrative_price(plan, application);
    add_cost(plan, &own, own.price, totals);
}

static void administrative_totals(const struct plan *plan, unsigned pot, uint64_t *totals)
{
    memset(totals, 0, MAX_Y * sizeof *totals);
    for (unsigned i = 0; i < plan->applications; i++)
        if (of_pot(plan, i, pot))
            add_at_administrative_price(plan, i, totals);
}

/* What some bids that would win together cost. */
static void plan_by_choice(struct plan *plan, const struct stack *stack, uint64_t *budget)
{
    struct choice choice;
    uint64_t totals[MAX_Y];
    choose_some(plan, stack, &choice);
    choice_totals(plan, &choice, totals);
    pounds_for(plan, totals, budget);
}

/* A choice that costs whole pounds in this year, or a penny more, if one is soon
 * found: its total equals the budget, or exceeds it by that penny. */
static void plan_to_the_penny(struct plan *plan, const struct stack *stack, unsigned year,
                              uint64_t *budget)
{
    enum { TRIES = 16 };
    struct choice choice;
    uint64_t totals[MAX_Y];
    unsigned penny = (unsigned)rng_below(&plan->rng, 2), tries = 0;
    do {
        choose_some(plan, stack, &choice);
        choice_totals(plan, &choice, totals);
    } while ((totals[year] == 0 || totals[year] % PENCE_TO_THE_POUND != penny) && ++tries < TRIES);
    pounds_for(plan, totals, budget);
    if (penny)
        one_pound_less(&budget[year]);
}

/* Room for some of the silent at their administrative prices, beside a choice of
 * bids or beside all that bid, at their administrative prices as well: were
 * silence a bid, some would win. */
static void plan_beside_the_silent(struct plan *plan, unsigned pot, const struct stack *stack,
                                   uint64_t *budget)
{
    struct rng *rng = &plan->rng;
    struct choice choice;
    uint64_t totals[MAX_Y] = { 0 };
    bool all_that_bid = rng_chance(rng, 50);
    if (!all_that_bid) {
        choose_some(plan, stack, &choice);
        choice_totals(plan, &choice, totals);
    }
    for (unsigned i = 0; i < plan->applications; i++)
        if (of_pot(plan, i, pot)
            && (bids_of(plan, i, MAX_Y) == 0 ? rng_chance(rng, 50) : all_that_bid))
            add_at_administrative_price(plan, i, totals);
    pounds_for(plan, totals, budget);
}

static void plan_year_by_year(struct plan *plan, const struct stack *stack, uint64_t *budget)
{
    uint64_t other[MAX_Y];
    for (unsigned y = 0; y < plan->years; y++) {
        plan_by_choice(plan, stack, other);
        budget[y] = other[y];
        if (rng_chance(&plan->rng, 20))
            one_pound_less(&budget[y]);
    }
}

static void plan_budget(struct plan *plan, unsigned pot, uint64_t *budget)
{
    struct rng *rng = &plan->rng;
    struct stack stack;
    uint64_t totals[MAX_Y];
    unsigned kind = (unsigned)rng_below(rng, 100);
    unsigned binding = (unsigned)rng_below(rng, plan->years);
    stack_of_pot(plan, pot, &stack);
    plan_by_choice(plan, &stack, budget);
    if (kind < 45) { /* what a choice costs, or near it */
        vary_budget(plan, budget);
    } else if (kind < 53) {
        plan_beside_the_silent(plan, pot, &stack, budget);
        vary_budget(plan, budget);
    } else if (kind < 60) {
        plan_to_the_penny(plan, &stack, binding, budget);
    } else if (kind < 75) { /* one year binds */
        for (unsigned y = 0; y < plan->years; y++)
            if (y != binding)
                budget[y] = MAX_BUDGET;
    } else if (kind < 85) { /* each year from a choice of its own */
        plan_year_by_year(plan, &stack, budget);
    } else if (kind < 90) { /* nothing in one year, or in all */
        bool all = rng_chance(rng, 40);
        for (unsigned y = 0; y < plan->years; y++)
            if (all || y == binding)
                budget[y] = 0;
    } else if (kind < 97) { /* all at administrative prices, or one pound less */
        administrative_totals(plan, pot, totals);
        pounds_for(plan, totals, budget);
        if (rng_chance(rng, 60))
            one_pound_less(&budget[binding]);
    } else {
        for (unsigned y = 0; y < plan->years; y++)
            budget[y] = MAX_BUDGET;
    }
    for (unsigned y = 0; y < plan->years; y++)
        if (budget[y] > MAX_BUDGET)
            budget[y] = MAX_BUDGET;
}

/* Money for a few bids of each delivery year beside those of the years before, so
 * that every year has its tie. */
static void plan_budget_of_ties(struct plan *plan, unsigned pot, uint64_t *budget)
{
    struct rng *rng = &plan->rng;
    struct choice choice;
    uint64_t totals[MAX_Y];
    memset(&choice, 0, sizeof choice);
    for (unsigned d = 0; d < plan->delivery; d++) {
        unsigned most = choice.count + (rng_chance(rng, 30) ? between(rng, 3, 5) : between(rng, 0, 2));
        for (unsigned i = 0; i < plan->bids && choice.count < most; i++)
            if (plan->bid[i].year == d && of_pot(plan, plan->bid[i].application, pot))
                choose(&choice, &plan->bid[i]);
    }
    choice_totals(plan, &choice, totals);
    pounds_for(plan, totals, budget);
    vary_budget(plan, budget);
    for (unsigned y = 0; y < plan->years; y++)
        if (budget[y] > MAX_BUDGET)
            budget[y] = MAX_BUDGET;
}

/* ---- caps ---- */

static uint64_t capacity_of(const struct choice *choice)
{
    uint64_t capacity = 0;
    for (unsigned i = 0; i < choice->count; i++)
        capacity += choice->bid[i].capacity;
    return capacity;
}

static uint64_t capacity_of_pot(const struct plan *plan, unsigned pot)
{
    uint64_t capacity = 0;
    for (unsigned i = 0; i < plan->applications; i++)
        if (of_pot(plan, i, pot))
            capacity += plan->application[i].capacity;
    return capacity;
}

/* A limit that is met exactly, missed by one, or neither. */
static uint64_t at_or_near(struct rng *rng, uint64_t limit)
{
    switch (rng_below(rng, 6)) {
    case 0:
    case 1:
    case 2:
        return limit;
    case 3:
    case 4:
        return limit - (limit > 0);
    default:
        return limit * between(rng, 90, 160) / 100;
    }
}

/* What a choice of bids costs and holds: the budgets and the cap meet it both,
 * or one of them, or neither. */
static uint64_t plan_budget_and_cap(struct plan *plan, const struct stack *stack, uint64_t *budget)
{
    struct rng *rng = &plan->rng;
    struct choice choice;
    uint64_t totals[MAX_Y];
    choose_some(plan, stack, &choice);
    choice_totals(plan, &choice, totals);
    pounds_for(plan, totals, budget);
    if (rng_chance(rng, 50))
        one_pound_less(&budget[rng_below(rng, plan->years)]);
    return at_or_near(rng, capacity_of(&choice));
}

/* The first test in money and capacity. */
static uint64_t plan_first_test(struct plan *plan, unsigned pot, uint64_t *budget)
{
    struct rng *rng = &plan->rng;
    uint64_t totals[MAX_Y];
    administrative_totals(plan, pot, totals);
    pounds_for(plan, totals, budget);
    if (rng_chance(rng, 40))
        one_pound_less(&budget[rng_below(rng, plan->years)]);
    return at_or_near(rng, capacity_of_pot(plan, pot));
}

/* The cap of a bid alone: it fits, or does not, before any has won. */
static uint64_t plan_cap_of_one(struct plan *plan, const struct stack *stack)
{
    uint64_t capacity = 0;
    if (stack->count > 0)
        capacity = stack->bid[rng_below(&plan->rng, stack->count)].capacity;
    return at_or_near(&plan->rng, capacity);
}

static uint64_t some_extreme_cap(struct rng *rng)
{
    static const uint32_t caps[] = { 0, 0, 1, MAX_CAP, NO_CAP, NO_CAP, NO_CAP };
    return caps[rng_below(rng, sizeof caps / sizeof *caps)];
}

/* So much money that the cap decides, in most of the years or in all. */
static void lift_budgets(struct plan *plan, uint64_t *budget)
{
    struct rng *rng = &plan->rng;
    unsigned binding = rng_chance(rng, 25) ? (unsigned)rng_below(rng, plan->years) : MAX_Y;
    for (unsigned y = 0; y < plan->years; y++)
        if (y != binding)
            budget[y] = MAX_BUDGET;
}

/* Budgets as they were planned, or lifted, or planned again beside the cap. */
static void plan_cap(struct plan *plan, unsigned pot)
{
    struct rng *rng = &plan->rng;
    struct stack stack;
    struct choice choice;
    uint64_t *budget = plan->budget[pot], cap;
    unsigned kind = (unsigned)rng_below(rng, 100);
    stack_of_pot(plan, pot, &stack);
    choose_some(plan, &stack, &choice);
    cap = at_or_near(rng, capacity_of(&choice));
    if (kind < 45)
        lift_budgets(plan, budget);
    else if (kind < 60)
        cap = plan_budget_and_cap(plan, &stack, budget);
    else if (kind < 68)
        cap = plan_first_test(plan, pot, budget);
    else if (kind < 76)
        cap = plan_cap_of_one(plan, &stack);
    else if (kind < 86)
        cap = some_extreme_cap(rng);
    if (rng_chance(rng, 10))
        lift_budgets(plan, budget);
    if (cap > MAX_CAP && cap != NO_CAP)
        cap = MAX_CAP;
    plan->cap[pot] = (uint32_t)cap;
}

static void plan_caps(struct plan *plan)
{
    plan->with_caps = true;
    for (unsigned pot = 0; pot < plan->pots; pot++)
        plan_cap(plan, pot);
}

/* The bids below the common price, which win before the tie. */
static void choose_cheaper(const struct plan *plan, const struct stack *stack, struct choice *choice)
{
    memset(choice, 0, sizeof *choice);
    for (unsigned i = 0; i < stack->count && stack->bid[i].price < plan->common; i++)
        choose(choice, &stack->bid[i]);
}

/* Of those tied, one that is to remain. */
static bool remains(const struct plan *plan, const struct style *style, const struct plan_bid *bid)
{
    return bid->price == plan->common && bid->application < style->tied;
}

/* Raised so that each of these fits alone beside what wins before. */
static void raise_for_each_alone(const struct plan *plan, const struct style *style, const struct stack *stack,
                                 uint64_t *totals, uint64_t *capacity)
{
    for (unsigned i = 0; i < stack->count; i++) {
        struct choice alone;
        uint64_t of_alone[MAX_Y];
        if (!remains(plan, style, &stack->bid[i]))
            continue;
        choose_cheaper(plan, stack, &alone);
        choose(&alone, &stack->bid[i]);
        choice_totals(plan, &alone, of_alone);
        for (unsigned y = 0; y < plan->years; y++)
            totals[y] = of_alone[y] > totals[y] ? of_alone[y] : totals[y];
        *capacity = capacity_of(&alone) > *capacity ? capacity_of(&alone) : *capacity;
    }
}

/* Money, a cap, or both, for some of those tied beside what wins before. */
static void plan_limits_of_a_wide_tie(struct plan *plan, const struct style *style)
{
    static const unsigned chances[] = { 15, 40, 60, 85 };
    struct rng *rng = &plan->rng;
    struct stack stack;
    struct choice choice;
    uint64_t totals[MAX_Y];
    unsigned chance = chances[rng_below(rng, 4)];
    stack_of_pot(plan, 0, &stack);
    choose_cheaper(plan, &stack, &choice);
    for (unsigned i = 0; i < stack.count; i++)
        if (remains(plan, style, &stack.bid[i]) && rng_chance(rng, chance))
            choose(&choice, &stack.bid[i]);
    choice_totals(plan, &choice, totals);
    uint64_t capacity = capacity_of(&choice);
    raise_for_each_alone(plan, style, &stack, totals, &capacity);
    pounds_for(plan, totals, plan->budget[0]);
    if (rng_chance(rng, 30))
        vary_budget(plan, plan->budget[0]);
    plan->with_caps = rng_chance(rng, 50);
    plan->cap[0] = (uint32_t)(capacity > MAX_CAP ? MAX_CAP : capacity);
    if (plan->with_caps && rng_chance(rng, 60))
        lift_budgets(plan, plan->budget[0]);
    else if (plan->with_caps && rng_chance(rng, 50))
        plan->cap[0] = MAX_CAP;
    for (unsigned y = 0; y < plan->years; y++)
        if (plan->budget[0][y] > MAX_BUDGET)
            plan->budget[0][y] = MAX_BUDGET;
}

/* ---- drawn numbers ---- */

/* The first few, some that last for several ties, the greatest, and any. */
static uint32_t some_drawn_number(struct rng *rng)
{
    static const uint32_t edges[] = { 0, 0, 1, 2, MAX_DRAWN, MAX_DRAWN, MAX_DRAWN - 1 };
    switch (rng_below(rng, 5)) {
    case 0:
        return edges[rng_below(rng, sizeof edges / sizeof *edges)];
    case 1:
        return (uint32_t)rng_below(rng, 40);
    case 2:
        return (uint32_t)rng_below(rng, 100000);
    default:
        return (uint32_t)rng_next(rng);
    }
}

/* A drawn number stands after a cap, which may be none. */
static void plan_drawn_numbers(struct plan *plan)
{
    for (unsigned pot = 0; pot < plan->pots; pot++) {
        if (!plan->with_caps)
            plan->cap[pot] = NO_CAP;
        plan->drawn[pot] = some_drawn_number(&plan->rng);
    }
    plan->with_caps = plan->with_drawn = true;
}

/* ---- writing a plan ---- */

static void put(uint8_t **p, unsigned bytes, uint64_t n)
{
    for (unsigned i = 0; i < bytes; i++)
        *(*p)++ = (uint8_t)(n >> (8 * i));
}

static void write_years_and_pots(const struct plan *plan, uint8_t **p)
{
    put(p, 2, plan->years);
    for (unsigned y = 0; y < plan->years; y++) {
        put(p, 2, plan->year[y].days);
        put(p, 2, y < plan->delivery);
        put(p, 2, plan->year[y].tlm);
    }
    put(p, 2, plan->pots + (plan->with_caps ? WITH_CAPS : 0) + (plan->with_drawn ? WITH_DRAWN : 0));
    for (unsigned i = 0; i < plan->pots; i++) {
        for (unsigned y = 0; y < plan->years; y++)
            put(p, 8, plan->budget[i][y]);
        if (plan->with_caps)
            put(p, 4, plan->cap[i]);
        if (plan->with_drawn)
            put(p, 4, plan->drawn[i]);
    }
}

static void write_technologies(const struct plan *plan, uint8_t **p)
{
    put(p, 2, plan->technologies);
    for (unsigned t = 0; t < plan->technologies; t++) {
        put(p, 2, plan->technology[t].pot);
        put(p, 2, plan->technology[t].rqm);
        for (unsigned y = 0; y < plan->years; y++) {
            put(p, 4, plan->technology[t].administrative[y]);
            put(p, 4, plan->technology[t].reference[y]);
            put(p, 2, plan->technology[t].load_factor[y]);
        }
    }
}

static void write_applications_and_bids(const struct plan *plan, uint8_t **p)
{
    put(p, 2, plan->applications);
    for (unsigned i = 0; i < plan->applications; i++) {
        put(p, 2, plan->application[i].technology);
        put(p, 2, plan->application[i].year);
        put(p, 2, plan->application[i].days);
        put(p, 2, plan->application[i].draw);
        put(p, 4, plan->application[i].capacity);
        put(p, 8, plan->application[i].declared_cost);
    }
    put(p, 2, plan->bids);
    for (unsigned i = 0; i < plan->bids; i++) {
        put(p, 2, plan->bid[i].application);
        put(p, 2, plan->bid[i].year);
        put(p, 2, plan->bid[i].days);
        put(p, 4, plan->bid[i].capacity);
        put(p, 4, plan->bid[i].price);
    }
}

static size_t write_plan(const struct plan *plan, uint8_t *out)
{
    uint8_t *p = out;
    write_years_and_pots(plan, &p);
    write_technologies(plan, &p);
    write_applications_and_bids(plan, &p);
    return (size_t)(p - out);
}

/* ---- flavours ---- */

static struct style small_style(struct rng *rng)
{
    struct style style = { 0 };
    style.delivery = rng_chance(rng, 40) ? 1 : between(rng, 1, 4);
    style.valuation_only = rng_chance(rng, 60) ? 0 : between(rng, 0, 8 - style.delivery);
    style.pots = 1;
    style.technologies = between(rng, 1, 3);
    style.applications = between(rng, 0, 7);
    style.no_bid = 15;
    style.dear = 7;
    style.common_price = 20;
    style.chain = 15;
    style.further_bids = 3;
    style.reference_above = 4;
    style.same_technology = 30;
    style.drawn = 20;
    style.most_tied = JUDGE_WIDE - 1;
    style.capacities = rng_chance(rng, 50) ? ANY : SMALL;
    return style;
}

static void style_of_chains(struct rng *rng, struct style *style)
{
    style->applications = between(rng, 1, 5);
    style->chain = 75;
    style->common_price = 10;
    style->no_bid = 10;
    style->dear = 3;
    style->further_bids = 1;
}

static void style_of_ties(struct rng *rng, struct style *style)
{
    style->applications = between(rng, 2, 11);
    style->common_price = 85;
    style->no_bid = 5;
    style->dear = 2;
    style->chain = 3;
    style->further_bids = 1;
    style->same_technology = 70;
    style->capacities = rng_chance(rng, 35) ? EQUAL : rng_chance(rng, 60) ? SMALL : ANY;
}

/* A tie of about ten. */
static void style_of_about_ten(struct rng *rng, struct style *style)
{
    style_of_ties(rng, style);
    style->applications = between(rng, 10, 16);
    style->delivery = between(rng, 1, 3);
    style->valuation_only = between(rng, 0, 1);
    style->common_price = 95;
    style->capacities = rng_chance(rng, 40) ? SKEWED : rng_chance(rng, 50) ? EQUAL : SMALL;
}

/* A few of any kind, and so many alike that it is too wide or they are dropped, also
 * where damage touches three of them: were 20 left, the judge would try a million
 * combinations. */
static void style_of_too_wide(struct rng *rng, struct style *style)
{
    style_of_about_ten(rng, style);
    style->width = TOO_WIDE;
    style->few = between(rng, 0, 10);
    style->applications = style->few + JUDGE_MAX_REMAINING + between(rng, 4, rng_chance(rng, 20) ? 34 : 8);
    style->most_tied = MAX_N;
}

/* A tie of 11 and now and then of more, up to 16, all alike or not: the judge takes
 * twice as long for each more.  There may be others, so many alike that all of them
 * are dropped or it is too wide. */
static void style_of_wide(struct rng *rng, struct style *style)
{
    style_of_about_ten(rng, style);
    style->width = WIDE;
    style->tied = JUDGE_WIDE;
    while (style->tied < 16 && rng_chance(rng, 40))
        style->tied++;
    if (rng_chance(rng, 20))
        style->dropped = JUDGE_MAX_REMAINING + between(rng, 4, 8) - style->tied;
    style->most_tied = style->tied + style->dropped;
    style->applications = style->most_tied + between(rng, 0, 3);
    style->reference_above = rng_chance(rng, 40) ? 50 : 4;
    style->drawn = 60;
    style->capacities = rng_chance(rng, 40) ? SMALL : style->dropped > 0 || rng_chance(rng, 50) ? SKEWED : ANY;
    if (rng_chance(rng, 40)) {
        style->delivery = rng_chance(rng, 60) ? 1 : 2;
        style->same_technology = style->alike = 100;
        style->capacities = EQUAL;
    }
}

/* Few of those that the judge takes long for. */
static void style_of_wide_ties(struct rng *rng, struct style *style)
{
    unsigned kind = (unsigned)rng_below(rng, 1000);
    if (kind < 40)
        style_of_wide(rng, style);
    else if (kind < 300)
        style_of_about_ten(rng, style);
    else
        style_of_too_wide(rng, style);
}

static void style_of_big(struct rng *rng, struct style *style)
{
    bool limits = rng_chance(rng, 30);
    style->delivery = limits ? 4 : between(rng, 1, 4);
    style->valuation_only = limits ? 4 : between(rng, 0, 8 - style->delivery);
    style->pots = limits ? 4 : between(rng, 1, 4);
    style->technologies = limits ? 32 : between(rng, 4, 32);
    style->applications = limits ? 64 : between(rng, 20, 64);
    style->no_bid = limits ? 3 : 15;
    style->common_price = between(rng, 0, 25);
    style->further_bids = limits ? 14 : 6;
    style->most_tied = 8; /* of many years, beside many winners */
    style->capacities = ANY;
}

/* A small pot: bids of a few pounds, mostly tied, where pennies tell. */
static void style_of_pennies(struct rng *rng, struct style *style)
{
    style_of_ties(rng, style);
    style->applications = between(rng, 2, 7);
    style->common_price = 70;
    style->low_load = 85;
    style->capacities = CLOSE;
}

/* Ties one after another, of bids all alike or of few kinds; the last year may
 * cost nothing. */
static void style_of_alike(struct rng *rng, struct style *style)
{
    style->delivery = between(rng, 1, 4);
    style->valuation_only = between(rng, 0, 1);
    style->pots = rng_chance(rng, 25) ? 2 : 1;
    style->technologies = style->pots + (unsigned)rng_below(rng, 2);
    style->applications = between(rng, 2, rng_chance(rng, 20) ? 20 : 11);
    style->no_bid = 3;
    style->dear = 1;
    style->reference_above = rng_chance(rng, 40) ? 50 : 4;
    style->same_technology = rng_chance(rng, 70) ? 100 : 30;
    style->alike = 95;
    style->drawn = 85;
    style->capacities = rng_chance(rng, 65) ? EQUAL : SMALL;
    if (rng_chance(rng, 15)) { /* ten that are drawn, all in one pot */
        style->delivery = style->pots = style->technologies = 1;
        style->applications = 10;
        style->capacities = EQUAL;
    }
}

static struct style style_of(enum flavour flavour, struct rng *rng)
{
    struct style style = small_style(rng);
    switch (flavour) {
    case ORDINARY:
        break;
    case CHAINS:
        style_of_chains(rng, &style);
        break;
    case TIES:
        style_of_ties(rng, &style);
        break;
    case WIDE_TIES:
        style_of_wide_ties(rng, &style);
        break;
    case SILENT:
        style.applications = between(rng, 1, rng_chance(rng, 15) ? 16 : 8);
        style.no_bid = 60;
        style.dear = 25;
        style.same_technology = 60;
        break;
    case ZERO_COST:
        style.reference_above = 45;
        break;
    case MANY_POTS:
        style.pots = between(rng, 2, 4);
        style.technologies = between(rng, 1, 8);
        style.applications = between(rng, 0, 16);
        break;
    case BIG:
        style_of_big(rng, &style);
        break;
    case PENNIES:
        style_of_pennies(rng, &style);
        break;
    case ALIKE:
        style_of_alike(rng, &style);
        break;
    }
    return style;
}

static enum flavour some_flavour(struct rng *rng)
{
    static const unsigned weight[] = { 13, 19, 15, 11, 10, 5, 9, 4, 6, 8 };
    unsigned left = (unsigned)rng_below(rng, 100);
    unsigned flavour = 0;
    while (left >= weight[flavour])
        left -= weight[flavour++];
    return (enum flavour)flavour;
}

static size_t make_from_style(struct plan *plan, const struct style *style, uint8_t *out)
{
    plan_years(plan, style);
    plan_technologies(plan, style);
    plan_applications(plan, style);
    plan_bids(plan, style);
    if (style->width == WIDE) {
        plan_limits_of_a_wide_tie(plan, style);
    } else {
        for (unsigned pot = 0; pot < plan->pots; pot++)
            if (style->alike > 0 && rng_chance(&plan->rng, 70))
                plan_budget_of_ties(plan, pot, plan->budget[pot]);
            else
                plan_budget(plan, pot, plan->budget[pot]);
        if (rng_chance(&plan->rng, 45))
            plan_caps(plan);
    }
    if (rng_chance(&plan->rng, style->drawn))
        plan_drawn_numbers(plan);
    return write_plan(plan, out);
}

static struct rng rng_from(uint64_t seed, uint64_t purpose)
{
    struct rng rng = { seed ^ (purpose * 0xD1342543DE82EF95u) };
    rng.state = rng_next(&rng);
    return rng;
}

size_t make_round(uint64_t seed, uint8_t *out)
{
    struct plan plan = { .rng = rng_from(seed, 1) };
    struct style style = style_of(some_flavour(&plan.rng), &plan.rng);
    return make_from_style(&plan, &style, out);
}

size_t make_pot(uint64_t seed, uint8_t *out)
{
    struct plan plan = { .rng = rng_from(seed, 2) };
    struct style style = style_of(some_flavour(&plan.rng), &plan.rng);
    style.pots = 1;
    if (style.width != WIDE) {
        style.delivery = between(&plan.rng, 1, 4);
        style.valuation_only = rng_chance(&plan.rng, 60) ? 0 : between(&plan.rng, 1, 4);
    }
    if (style.applications < 2)
        style.applications = 2;
    return make_from_style(&plan, &style, out);
}

/* "Round A: years 0 and 1, both delivery, 365 days, TLM 0, one pot, budgets
 * 100,000 each; one technology, administrative 20,000, reference 0, load and
 * RQM 10,000. Applications of 1.00 MW, 365 days, in years 0, 0, 1; draws 0, 1,
 * 2; one bid each for the same, at 4,000, 6,000, 5,000." */
static struct plan plan_of_round_a(void)
{
    static const unsigned years[] = { 0, 0, 1 };
    static const uint32_t prices[] = { 4000, 6000, 5000 };
    struct plan plan = { .years = 2, .delivery = 2, .pots = 1, .technologies = 1,
                         .applications = 3, .bids = 3 };
    plan.technology[0].rqm = 10000;
    for (unsigned y = 0; y < 2; y++) {
        plan.year[y].days = 365;
        plan.budget[0][y] = 100000;
        plan.technology[0].administrative[y] = 20000;
        plan.technology[0].load_factor[y] = 10000;
    }
    for (unsigned i = 0; i < 3; i++) {
        struct plan_application application = { 0, years[i], 365, i, 100, 0 };
        struct plan_bid bid = { i, years[i], 365, 100, prices[i] };
        plan.application[i] = application;
        plan.bid[i] = bid;
    }
    return plan;
}

size_t make_round_a(uint8_t *out)
{
    struct plan plan = plan_of_round_a();
    return write_plan(&plan, out);
}

size_t make_round_a_with_cap(uint32_t cap, uint8_t *out)
{
    struct plan plan = plan_of_round_a();
    plan.with_caps = true;
    plan.cap[0] = cap;
    return write_plan(&plan, out);
}

size_t make_round_a_drawn(uint32_t cap, uint32_t drawn, uint8_t *out)
{
    struct plan plan = plan_of_round_a();
    plan.with_caps = plan.with_drawn = true;
    plan.cap[0] = cap;
    plan.drawn[0] = drawn;
    return write_plan(&plan, out);
}

/* ---- wide ties by hand ---- */

/* Round A's technology over so many years, without bids. */
static struct plan plan_of_a_wide_tie(unsigned delivery, unsigned years)
{
    struct plan plan = { .years = years, .delivery = delivery, .pots = 1, .technologies = 1, .most_tied = MAX_N };
    plan.cap[0] = NO_CAP;
    plan.technology[0].rqm = 10000;
    for (unsigned y = 0; y < years; y++) {
        plan.year[y].days = 365;
        plan.technology[0].administrative[y] = y < delivery ? 20000 : 0;
        plan.technology[0].load_factor[y] = 10000;
    }
    return plan;
}

/* One more application, with a bid for all of it. */
static void add_bidder(struct plan *plan, unsigned technology, unsigned year, uint32_t capacity, uint32_t price)
{
    unsigned i = plan->applications++;
    struct plan_application application = { technology, year, 365, 100 - 7 * i % 64, capacity, 0 };
    plan->application[i] = application;
    add_bid_for_all_of_it(plan, i, price);
}

static void draw_by(struct plan *plan, uint32_t number)
{
    plan->with_caps = plan->with_drawn = true;
    plan->drawn[0] = number;
}

/* So many of 1.00 MW at 1,000, of which half fit, for 8,760 pounds each. */
static struct plan plan_of_alike(unsigned tied)
{
    struct plan plan = plan_of_a_wide_tie(1, 1);
    for (unsigned i = 0; i < tied; i++)
        add_bidder(&plan, 0, 0, 100, 1000);
    plan.budget[0][0] = 8760 * (tied / 2);
    return plan;
}

/* Twenty, and one more that does not fit alone: half are 184,756 to draw from. */
static struct plan plan_of_twenty(void)
{
    struct plan plan = plan_of_alike(20);
    add_bidder(&plan, 0, 0, 1001, 1000);
    draw_by(&plan, 1000000007);
    return plan;
}

/* Fifteen over three delivery years, no two for the same capacity, and a cap that
 * is just reached by the odd ones of them. */
static struct plan plan_of_a_wide_tie_under_a_cap(void)
{
    struct plan plan = plan_of_a_wide_tie(3, 4);
    plan.with_caps = true;
    plan.cap[0] = 0;
    for (unsigned i = 0; i < 15; i++) {
        uint32_t capacity = 100 + i * i;
        add_bidder(&plan, 0, i % 3, capacity, 1000);
        plan.cap[0] += i % 2 ? capacity : 0;
    }
    for (unsigned y = 0; y < 4; y++)
        plan.budget[0][y] = MAX_BUDGET;
    return plan;
}

/* A winner of each year, whom the tie makes dearer, then sixteen over two years of
 * whom every fourth costs something in the last year, and the others nothing. */
static struct plan plan_of_some_free_at_last(void)
{
    struct plan plan = plan_of_a_wide_tie(2, 3);
    plan.technologies = 2;
    plan.technology[1] = plan.technology[0];
    plan.technology[1].reference[2] = 20000;
    add_bidder(&plan, 0, 0, 100, 900);
    add_bidder(&plan, 0, 1, 100, 900);
    for (unsigned i = 0; i < 16; i++)
        add_bidder(&plan, i % 4 != 0, i % 2, 100, 1000);
    plan.budget[0][0] = 8760 * 4;
    plan.budget[0][1] = 8760 * 8;
    plan.budget[0][2] = 8760 * 4;
    draw_by(&plan, 123456789);
    return plan;
}

/* Twelve in year 0 of which any six fit, then eleven in year 1 of which any five
 * fit beside them: 924 and 462 to draw from. */
static struct plan plan_of_two_wide_ties(void)
{
    struct plan plan = plan_of_a_wide_tie(2, 2);
    for (unsigned i = 0; i < 23; i++)
        add_bidder(&plan, 0, i >= 12, 100, i < 12 ? 1000 : 1100);
    plan.budget[0][0] = 8760 * 6;
    plan.budget[0][1] = 8760 * 6 + 9636 * 5;
    draw_by(&plan, 4000000000u);
    return plan;
}

/* Twenty-one that remain, all of year 0, or two of them of year 1, and one more, who
 * is dropped; a winner before them. */
static struct plan plan_of_twenty_one(unsigned of_year_1, bool drawn)
{
    struct plan plan = plan_of_a_wide_tie(2, 2);
    add_bidder(&plan, 0, 0, 100, 900);
    for (unsigned i = 0; i < 21; i++)
        add_bidder(&plan, 0, i < of_year_1, 100, 1000);
    if (of_year_1 > 0)
        add_bidder(&plan, 0, 0, 1001, 1000);
    plan.budget[0][0] = plan.budget[0][1] = 87600;
    if (drawn)
        draw_by(&plan, 3);
    return plan;
}

size_t make_wide(unsigned which, uint8_t *out)
{
    struct plan plan;
    switch (which) {
    case 0:
        plan = plan_of_twenty();
        break;
    case 1:
        plan = plan_of_a_wide_tie_under_a_cap();
        break;
    case 2:
        plan = plan_of_some_free_at_last();
        break;
    case 3:
        plan = plan_of_two_wide_ties();
        break;
    case 4:
        plan = plan_of_alike(17);
        draw_by(&plan, MAX_DRAWN);
        break;
    case 5:
        plan = plan_of_twenty_one(0, true);
        break;
    case 6:
        plan = plan_of_twenty_one(2, false);
        break;
    default:
        plan = plan_of_alike(22);
    }
    return write_plan(&plan, out);
}

/* 8 years of which 4 delivery, 4 pots with drawn numbers, 32 technologies, 64
 * applications, 256 bids: 4 a head, over the years from the application's on, 3 in a year at
 * most. */
size_t make_largest(uint8_t *out)
{
    struct style style = small_style(&(struct rng){ 0 });
    struct plan plan = { .rng = rng_from(0, 3) };
    style.delivery = 4;
    style.valuation_only = 4;
    style.pots = 4;
    style.technologies = 32;
    style.applications = 64;
    style.capacities = ANY;
    plan_years(&plan, &style);
    plan_technologies(&plan, &style);
    plan_applications(&plan, &style);
    plan.most_tied = MAX_N;
    for (unsigned i = 0; i < 64; i++) {
        plan.application[i].year = i % 3;
        plan.application[i].days = between(&plan.rng, 1, plan.year[i % 3].days);
    }
    for (unsigned i = 0; i < 64; i++)
        while (bids_of(&plan, i, MAX_Y) < 4)
            add_some_bid(&plan, i);
    shuffle_bids(&plan);
    for (unsigned pot = 0; pot < plan.pots; pot++)
        plan_budget(&plan, pot, plan.budget[pot]);
    plan_caps(&plan);
    plan_drawn_numbers(&plan);
    return write_plan(&plan, out);
}

/* ---- damage ---- */

/* Where everything stands in a well-formed round. */
struct layout {
    unsigned count[5];
    size_t count_at[5], first[5], size[5];
    size_t end;
    unsigned delivery;
    bool with_caps, with_drawn;
};

enum { YEARS, POTS, TECHNOLOGIES, APPLICATIONS, BIDS };

static const unsigned most_records[5] = { MAX_Y, MAX_P, MAX_T, MAX_N, MAX_B };

static uint64_t get(const uint8_t *p, unsigned bytes)
{
    uint64_t n = 0;
    for (unsigned i = 0; i < bytes; i++)
        n |= (uint64_t)p[i] << (8 * i);
    return n;
}

static void set(uint8_t *p, unsigned bytes, uint64_t n)
{
    put(&p, bytes, n);
}

static struct layout layout_of(const uint8_t *file)
{
    struct layout l = { 0 };
    size_t place = 0;
    for (unsigned s = YEARS; s <= BIDS; s++) {
        l.count_at[s] = place;
        l.count[s] = (unsigned)get(file + place, 2);
        if (s == POTS) {
            l.with_caps = l.count[POTS] >= WITH_CAPS;
            l.with_drawn = l.count[POTS] >= WITH_CAPS + WITH_DRAWN;
            l.count[POTS] %= WITH_DRAWN;
        }
        const size_t sizes[5] = { 6, 8 * l.count[YEARS] + (l.with_caps ? 4 : 0) + (l.with_drawn ? 4 : 0),
                                  4 + 10 * l.count[YEARS], 20, 14 };
        l.first[s] = place + 2;
        l.size[s] = sizes[s];
        place += 2 + l.count[s] * l.size[s];
    }
    l.end = place;
    while (l.delivery < l.count[YEARS] && get(file + l.first[YEARS] + 6 * l.delivery + 2, 2) == 1)
        l.delivery++;
    return l;
}

static size_t record_at(const struct layout *l, unsigned section, unsigned i)
{
    return l->first[section] + i * l->size[section];
}

/* The file under damage.  A damage answers whether it could be done here. */
struct wreck {
    struct rng *rng;
    uint8_t *file;
    size_t len;
    struct layout l;
};

static uint8_t *some_record(struct wreck *w, unsigned section, unsigned *i)
{
    if (w->l.count[section] == 0)
        return NULL;
    *i = (unsigned)rng_below(w->rng, w->l.count[section]);
    return w->file + record_at(&w->l, section, *i);
}

static uint8_t *year_record(struct wreck *w, unsigned y)
{
    return w->file + record_at(&w->l, YEARS, y);
}

static uint8_t *application_record(struct wreck *w, unsigned i)
{
    return w->file + record_at(&w->l, APPLICATIONS, i);
}

static uint8_t *bid_record(struct wreck *w, unsigned i)
{
    return w->file + record_at(&w->l, BIDS, i);
}

/* Mostly just above what is allowed, now and then far above. */
static uint64_t above(struct wreck *w, uint64_t allowed, unsigned bytes)
{
    uint64_t most = bytes == 8 ? UINT64_MAX : ((uint64_t)1 << (8 * bytes)) - 1;
    if (rng_chance(w->rng, 65))
        return allowed + 1;
    if (rng_chance(w->rng, 50))
        return most;
    return allowed + 1 + rng_next(w->rng) % (most - allowed);
}

/* 1: cut at any byte, or close to where a count or record starts or ends. */
static bool cut(struct wreck *w)
{
    if (rng_chance(w->rng, 30)) {
        w->len = (size_t)rng_below(w->rng, w->l.end);
        return true;
    }
    unsigned s = (unsigned)rng_below(w->rng, 5);
    size_t at = w->l.count_at[s];
    if (rng_chance(w->rng, 60) && w->l.count[s] > 0)
        at = record_at(&w->l, s, (unsigned)rng_below(w->rng, w->l.count[s]));
    at += rng_below(w->rng, 3);
    if (s == POTS && w->l.with_caps && rng_chance(w->rng, 30)) /* in the first cap or number, or just before it */
        at = w->l.first[POTS] + 8 * w->l.count[YEARS] + rng_below(w->rng, w->l.with_drawn ? 8 : 4);
    if (rng_chance(w->rng, 20) && at > 0)
        at -= 1;
    if (at >= w->l.end)
        return false;
    w->len = at;
    return true;
}

/* 10: bytes appended. */
static bool append(struct wreck *w)
{
    static const unsigned counts[] = { 1, 1, 2, 14, 20, 100 };
    unsigned count = counts[rng_below(w->rng, 6)];
    bool zeros = rng_chance(w->rng, 50);
    for (unsigned i = 0; i < count; i++)
        w->file[w->len++] = zeros ? 0 : (uint8_t)rng_next(w->rng);
    return true;
}

static unsigned added_to_pots(const struct layout *l)
{
    return (l->with_caps ? WITH_CAPS : 0) + (l->with_drawn ? WITH_DRAWN : 0);
}

/* 2: what is added to the count of pots, or left out; or the file is read as if
 * it had caps, or drawn numbers, or none. */
static bool change_what_is_added(struct wreck *w)
{
    static const unsigned forms[] = { 0, WITH_CAPS, WITH_CAPS + WITH_DRAWN };
    unsigned pots = w->l.count[POTS], added = added_to_pots(&w->l), old = added;
    switch (rng_below(w->rng, 7)) {
    case 0:
    case 1:
    case 2:
        while (added == old)
            added = forms[rng_below(w->rng, 3)];
        break;
    case 3:
        added = WITH_DRAWN;
        break;
    case 4:
        added = forms[between(w->rng, 1, 2)];
        pots = 0;
        break;
    case 5:
        added = forms[between(w->rng, 1, 2)];
        pots = MAX_P + 1;
        break;
    default:
        added = 1u << between(w->rng, 3, 15);
    }
    set(w->file + w->l.count_at[POTS], 2, pots + added);
    return true;
}

/* 2 (or, after a count that is only wrong, whatever comes of it). */
static bool change_count(struct wreck *w)
{
    unsigned s = (unsigned)rng_below(w->rng, 5);
    unsigned count = w->l.count[s];
    bool keep_what_is_added = s == POTS && w->l.with_caps && rng_chance(w->rng, 50);
    switch (rng_below(w->rng, 6)) {
    case 0:
        count = 0;
        break;
    case 1:
    case 2:
        count = most_records[s] + 1;
        break;
    case 3:
        count += 1;
        break;
    case 4:
        count -= count > 0;
        break;
    default:
        count = (unsigned)above(w, most_records[s], 2);
    }
    if (keep_what_is_added && count < WITH_DRAWN)
        count += added_to_pots(&w->l);
    set(w->file + w->l.count_at[s], 2, count);
    return true;
}

/* 3: one field of a year. */
static bool harm_year_field(struct wreck *w)
{
    static const unsigned days[] = { 364, 367, 0, 65535 };
    unsigned i;
    uint8_t *year = some_record(w, YEARS, &i);
    switch (rng_below(w->rng, 3)) {
    case 0:
        set(year, 2, days[rng_below(w->rng, 4)]);
        return true;
    case 1:
        set(year + 2, 2, above(w, 1, 2));
        return true;
    default:
        set(year + 4, 2, above(w, MAX_FACTOR, 2));
        return true;
    }
}

/* 3: the order of delivery and valuation-only years. */
static bool harm_year_order(struct wreck *w)
{
    unsigned years = w->l.count[YEARS], delivery = w->l.delivery;
    switch (rng_below(w->rng, 4)) {
    case 0:
        set(year_record(w, 0) + 2, 2, 0);
        return true;
    case 1:
        if (years < delivery + 2)
            return false;
        set(year_record(w, between(w->rng, delivery + 1, years - 1)) + 2, 2, 1);
        return true;
    case 2:
        if (delivery < 3)
            return false;
        set(year_record(w, between(w->rng, 1, delivery - 2)) + 2, 2, 0);
        return true;
    default:
        if (years < 5)
            return false;
        for (unsigned y = 0; y < 5; y++)
            set(year_record(w, y) + 2, 2, 1);
        return true;
    }
}

/* A year more or less of delivery, in good order: later records feel it. */
static bool change_delivery_years(struct wreck *w)
{
    if (rng_chance(w->rng, 50) && w->l.delivery >= 2)
        set(year_record(w, w->l.delivery - 1) + 2, 2, 0);
    else if (w->l.delivery < w->l.count[YEARS])
        set(year_record(w, w->l.delivery) + 2, 2, 1);
    else
        return false;
    return true;
}

/* 4 */
static bool harm_budget(struct wreck *w)
{
    unsigned i;
    uint8_t *pot = some_record(w, POTS, &i);
    unsigned y = (unsigned)rng_below(w->rng, w->l.count[YEARS]);
    set(pot + 8 * y, 8, above(w, MAX_BUDGET, 8));
    return true;
}

static uint8_t *some_cap(struct wreck *w)
{
    unsigned i;
    return w->l.with_caps ? some_record(w, POTS, &i) + 8 * w->l.count[YEARS] : NULL;
}

/* 4: above the greatest cap, and not none. */
static bool harm_cap(struct wreck *w)
{
    uint8_t *cap = some_cap(w);
    if (cap == NULL)
        return false;
    uint64_t wrong = above(w, MAX_CAP, 4);
    set(cap, 4, wrong == NO_CAP ? NO_CAP - 1 : wrong);
    return true;
}

/* Another cap that is allowed: at its limits, none, or one more or less. */
static bool change_cap(struct wreck *w)
{
    uint8_t *cap = some_cap(w);
    if (cap == NULL)
        return false;
    uint64_t old = get(cap, 4);
    const uint64_t others[] = { 0, MAX_CAP, NO_CAP, old < MAX_CAP ? old + 1 : old,
                                old > 0 && old != NO_CAP ? old - 1 : old };
    set(cap, 4, others[rng_below(w->rng, 5)]);
    return true;
}

/* Another drawn number, and any is allowed; one that would be no cap is among
 * them. */
static bool change_drawn_number(struct wreck *w)
{
    static const uint32_t others[] = { 0, 1, MAX_CAP + 1, MAX_DRAWN - 1, MAX_DRAWN };
    if (!w->l.with_drawn)
        return false;
    uint32_t other = (uint32_t)rng_next(w->rng);
    if (rng_chance(w->rng, 70))
        other = others[rng_below(w->rng, sizeof others / sizeof *others)];
    set(some_cap(w) + 4, 4, other);
    return true;
}

static bool change_cap_or_number(struct wreck *w)
{
    return rng_chance(w->rng, 65) ? change_cap(w) : change_drawn_number(w);
}

/* 5: an administrative price of a delivery year, or of another. */
static bool harm_administrative_price(struct wreck *w)
{
    static const uint32_t wrong[] = { 0, 1, 5, 9, 11, 15, 499999, 499995, 500001, 500010, 0xFFFFFFFA };
    unsigned i;
    uint8_t *technology = some_record(w, TECHNOLOGIES, &i);
    unsigned y = (unsigned)rng_below(w->rng, w->l.count[YEARS]);
    if (y < w->l.delivery)
        set(technology + 4 + 10 * y, 4, wrong[rng_below(w->rng, 11)]);
    else
        set(technology + 4 + 10 * y, 4, rng_chance(w->rng, 50) ? 10 : 1);
    return true;
}

/* 5 */
static bool harm_technology(struct wreck *w)
{
    unsigned i;
    uint8_t *technology = some_record(w, TECHNOLOGIES, &i);
    unsigned y = (unsigned)rng_below(w->rng, w->l.count[YEARS]);
    switch (rng_below(w->rng, 5)) {
    case 0:
        set(technology, 2, above(w, w->l.count[POTS] - 1, 2));
        return true;
    case 1:
        set(technology + 2, 2, above(w, MAX_FACTOR, 2));
        return true;
    case 2:
        set(technology + 4 + 10 * y + 4, 4, above(w, 500000, 4));
        return true;
    case 3:
        set(technology + 4 + 10 * y + 8, 2, above(w, MAX_FACTOR, 2));
        return true;
    default:
        return harm_administrative_price(w);
    }
}

static unsigned days_of_year(struct wreck *w, unsigned y)
{
    return (unsigned)get(year_record(w, y), 2);
}

/* 6: a draw used by an earlier application. */
static bool repeat_draw(struct wreck *w)
{
    if (w->l.count[APPLICATIONS] < 2)
        return false;
    unsigned later = between(w->rng, 1, w->l.count[APPLICATIONS] - 1);
    unsigned earlier = (unsigned)rng_below(w->rng, later);
    set(application_record(w, later) + 6, 2, get(application_record(w, earlier) + 6, 2));
    return true;
}

/* 6 */
static bool harm_application(struct wreck *w)
{
    unsigned i;
    uint8_t *application = some_record(w, APPLICATIONS, &i);
    if (application == NULL)
        return false;
    unsigned year = (unsigned)get(application + 2, 2);
    switch (rng_below(w->rng, 7)) {
    case 0:
        set(application, 2, above(w, w->l.count[TECHNOLOGIES] - 1, 2));
        return true;
    case 1:
        set(application + 2, 2, above(w, w->l.delivery - 1, 2));
        return true;
    case 2:
        set(application + 4, 2, 0);
        return true;
    case 3:
        set(application + 4, 2, above(w, days_of_year(w, year), 2));
        return true;
    case 4:
        set(application + 8, 4, 0);
        return true;
    case 5:
        set(application + 8, 4, above(w, MAX_CAPACITY, 4));
        return true;
    default:
        return repeat_draw(w);
    }
}

static uint32_t administrative_at(struct wreck *w, unsigned application, unsigned year)
{
    unsigned technology = (unsigned)get(application_record(w, application), 2);
    return (uint32_t)get(w->file + record_at(&w->l, TECHNOLOGIES, technology) + 4 + 10 * year, 4);
}

/* 7: a start in an earlier year than the application's. */
static bool harm_start_year(struct wreck *w)
{
    unsigned start = (unsigned)rng_below(w->rng, w->l.count[BIDS]);
    for (unsigned k = 0; k < w->l.count[BIDS]; k++) {
        uint8_t *bid = bid_record(w, (start + k) % w->l.count[BIDS]);
        unsigned year = (unsigned)get(application_record(w, (unsigned)get(bid, 2)) + 2, 2);
        if (year == 0)
            continue;
        set(bid + 2, 2, rng_below(w->rng, year));
        if (rng_chance(w->rng, 50))
            set(bid + 4, 2, 1);
        return true;
    }
    return false;
}

/* 7: a start in the application's year with more days. */
static bool harm_start_days(struct wreck *w, uint8_t *bid)
{
    uint8_t *application = application_record(w, (unsigned)get(bid, 2));
    unsigned year = (unsigned)get(application + 2, 2), days = (unsigned)get(application + 4, 2);
    if (get(bid + 2, 2) != year)
        return false;
    if (days < days_of_year(w, year)) {
        set(bid + 4, 2, days + 1);
        return true;
    }
    set(application + 4, 2, days - 1);
    set(bid + 4, 2, days);
    return true;
}

/* 7: days above the year's, though the application starts in an earlier year
 * or a longer one. */
static bool harm_later_days(struct wreck *w)
{
    unsigned start = (unsigned)rng_below(w->rng, w->l.count[BIDS]);
    for (unsigned k = 0; k < w->l.count[BIDS]; k++) {
        uint8_t *bid = bid_record(w, (start + k) % w->l.count[BIDS]);
        unsigned year = (unsigned)get(bid + 2, 2);
        if (get(application_record(w, (unsigned)get(bid, 2)) + 2, 2) == year)
            continue;
        set(bid + 4, 2, days_of_year(w, year) + 1);
        return true;
    }
    return false;
}

/* 7: a year that is no delivery year; at price 0 nothing else is wrong in a
 * valuation-only year. */
static bool harm_bid_year(struct wreck *w, uint8_t *bid)
{
    set(bid + 2, 2, above(w, w->l.delivery - 1, 2));
    if (rng_chance(w->rng, 50))
        set(bid + 10, 4, 0);
    return true;
}

/* 7: one field of this bid. */
static bool harm_this_bid(struct wreck *w, uint8_t *bid)
{
    unsigned application = (unsigned)get(bid, 2), year = (unsigned)get(bid + 2, 2);
    switch (rng_below(w->rng, 11)) {
    case 0:
        set(bid, 2, above(w, w->l.count[APPLICATIONS] - 1, 2));
        return true;
    case 1:
        return harm_bid_year(w, bid);
    case 2:
        set(bid + 4, 2, 0);
        return true;
    case 3:
        set(bid + 4, 2, above(w, days_of_year(w, year), 2));
        return true;
    case 4:
        set(bid + 6, 4, 0);
        return true;
    case 5:
        set(bid + 6, 4, above(w, get(application_record(w, application) + 8, 4), 4));
        return true;
    case 6:
        set(bid + 10, 4, above(w, administrative_at(w, application, year), 4));
        return true;
    case 7:
    case 8:
        return harm_start_year(w);
    case 9:
        return harm_later_days(w);
    default:
        return harm_start_days(w, bid);
    }
}

static bool harm_bid(struct wreck *w)
{
    unsigned i;
    uint8_t *bid = some_record(w, BIDS, &i);
    return bid != NULL && harm_this_bid(w, bid);
}

/* 8: the price of an earlier bid of the same application. */
static bool repeat_price(struct wreck *w)
{
    unsigned later;
    uint8_t *bid = some_record(w, BIDS, &later);
    if (bid == NULL)
        return false;
    unsigned start = (unsigned)rng_below(w->rng, w->l.count[BIDS]);
    for (unsigned k = 0; k < w->l.count[BIDS]; k++) {
        unsigned i = (start + k) % w->l.count[BIDS];
        uint8_t *other = bid_record(w, i);
        if (i == later || get(other, 2) != get(bid, 2))
            continue;
        set(bid + 10, 4, get(other + 10, 4));
        return true;
    }
    return false;
}

static unsigned bids_in_file(struct wreck *w, unsigned application, unsigned year)
{
    unsigned count = 0;
    for (unsigned i = 0; i < w->l.count[BIDS]; i++)
        count += get(bid_record(w, i), 2) == application && get(bid_record(w, i) + 2, 2) == year;
    return count;
}

static bool price_in_file(struct wreck *w, unsigned application, uint32_t price)
{
    for (unsigned i = 0; i < w->l.count[BIDS]; i++)
        if (get(bid_record(w, i), 2) == application && get(bid_record(w, i) + 10, 4) == price)
            return true;
    return false;
}

static void swap_bids(struct wreck *w, unsigned i, unsigned j)
{
    uint8_t kept[14];
    memcpy(kept, bid_record(w, i), 14);
    memcpy(bid_record(w, i), bid_record(w, j), 14);
    memcpy(bid_record(w, j), kept, 14);
}

/* One more bid at the end of the file, legal but perhaps too many. */
static bool grow_bid(struct wreck *w, unsigned application, unsigned year)
{
    const uint8_t *own = application_record(w, application);
    bool first_year = year == get(own + 2, 2);
    uint32_t price = administrative_at(w, application, year) / 10 * 10;
    if (w->l.count[BIDS] == MAX_B)
        return false;
    while (price > 0 && price_in_file(w, application, price))
        price -= 10;
    uint8_t *p = w->file + w->len;
    put(&p, 2, application);
    put(&p, 2, year);
    put(&p, 2, first_year ? get(own + 4, 2) : 1);
    put(&p, 4, get(own + 8, 4));
    put(&p, 4, price);
    w->len += 14;
    w->l.end += 14;
    w->l.count[BIDS]++;
    set(w->file + w->l.count_at[BIDS], 2, w->l.count[BIDS]);
    if (rng_chance(w->rng, 70))
        swap_bids(w, (unsigned)rng_below(w->rng, w->l.count[BIDS]), w->l.count[BIDS] - 1);
    return true;
}

static bool fill_year(struct wreck *w, unsigned application, unsigned year, unsigned bids)
{
    while (bids_in_file(w, application, year) < bids)
        if (!grow_bid(w, application, year))
            return false;
    return true;
}

/* 9: a fourth bid in one year, or an eleventh over four years of three. */
static bool too_many_bids(struct wreck *w)
{
    if (w->l.count[APPLICATIONS] == 0)
        return false;
    unsigned application = (unsigned)rng_below(w->rng, w->l.count[APPLICATIONS]);
    for (unsigned k = 0; k < w->l.count[APPLICATIONS] && w->l.delivery == 4; k++)
        if (get(application_record(w, application) + 2, 2) != 0)
            application = (application + 1) % w->l.count[APPLICATIONS];
    unsigned first = (unsigned)get(application_record(w, application) + 2, 2);
    bool done = true;
    if (w->l.delivery == 4 && first == 0)
        for (unsigned d = 0; d < 4; d++)
            done = done && fill_year(w, application, d, 3);
    else
        done = fill_year(w, application, between(w->rng, first, w->l.delivery - 1), 4);
    return done;
}

/* 11: the lowest bid of an application in a year, one to nine lower. */
static bool lower_a_lowest_bid(struct wreck *w)
{
    unsigned i;
    uint8_t *bid = some_record(w, BIDS, &i);
    if (bid == NULL)
        return false;
    for (unsigned k = 0; k < w->l.count[BIDS]; k++) {
        uint8_t *other = bid_record(w, k);
        if (get(other, 2) == get(bid, 2) && get(other + 2, 2) == get(bid + 2, 2)
            && get(other + 10, 4) < get(bid + 10, 4))
            bid = other;
    }
    if (get(bid + 10, 4) < 10 || get(bid + 10, 4) % 10 != 0)
        return false;
    set(bid + 10, 4, get(bid + 10, 4) - between(w->rng, 1, 9));
    return true;
}

/* 11: one such bid, or two of which the first in the file counts. */
static bool lower_lowest_bids(struct wreck *w)
{
    bool done = lower_a_lowest_bid(w);
    if (done && rng_chance(w->rng, 30))
        lower_a_lowest_bid(w);
    return done;
}

/* One record, two faults: 7 and 8, 7 and 9, 8 and 9, or two of 7. */
static bool harm_bid_twice(struct wreck *w)
{
    if (rng_chance(w->rng, 50)) {
        unsigned i;
        uint8_t *bid = some_record(w, BIDS, &i);
        if (bid == NULL)
            return false;
        unsigned application = (unsigned)get(bid, 2);
        for (unsigned k = 0; k < w->l.count[BIDS]; k++)
            if (k != i && get(bid_record(w, k), 2) == application)
                set(bid + 10, 4, get(bid_record(w, k) + 10, 4));
        return harm_this_bid(w, bid);
    }
    if (!too_many_bids(w))
        return false;
    return rng_chance(w->rng, 50) ? repeat_price(w) : harm_bid(w);
}

static bool flip_bytes(struct wreck *w)
{
    unsigned flips = between(w->rng, 1, 3);
    for (unsigned i = 0; i < flips; i++) {
        size_t at = (size_t)rng_below(w->rng, w->l.end);
        unsigned byte = w->file[at] ^ (1u << rng_below(w->rng, 8));
        if (rng_chance(w->rng, 50))
            byte = (unsigned)rng_below(w->rng, 256);
        w->file[at] = (uint8_t)byte;
    }
    return true;
}

/* A field moved to the very limit that is still allowed. */
static bool move_to_limit(struct wreck *w)
{
    unsigned i;
    unsigned y = (unsigned)rng_below(w->rng, w->l.count[YEARS]);
    switch (rng_below(w->rng, 10)) {
    case 0:
        set(year_record(w, y) + 4, 2, MAX_FACTOR);
        return true;
    case 1:
        set(some_record(w, POTS, &i) + 8 * y, 8, MAX_BUDGET);
        return true;
    case 2:
        set(some_record(w, TECHNOLOGIES, &i) + 2, 2, MAX_FACTOR);
        return true;
    case 3:
        set(some_record(w, TECHNOLOGIES, &i) + 4 + 10 * y + 4, 4, 500000);
        return true;
    case 4:
        y = (unsigned)rng_below(w->rng, w->l.delivery);
        set(some_record(w, TECHNOLOGIES, &i) + 4 + 10 * y, 4, 500000);
        return true;
    case 5:
        if (w->l.count[APPLICATIONS] == 0)
            return false;
        set(some_record(w, APPLICATIONS, &i) + 8, 4, MAX_CAPACITY);
        return true;
    case 6:
        set(year_record(w, y), 2, 366);
        return true;
    case 7:
    case 8:
        return change_cap_or_number(w);
    default:
        if (w->l.count[BIDS] == 0)
            return false;
        uint8_t *bid = some_record(w, BIDS, &i);
        set(bid + 10, 4, administrative_at(w, (unsigned)get(bid, 2), (unsigned)get(bid + 2, 2)));
        return true;
    }
}

/* Faults inside the records; the places of the layout stay true. */
static bool harm_a_record(struct wreck *w)
{
    switch (rng_below(w->rng, 17)) {
    case 0:
        return harm_year_field(w);
    case 1:
        return harm_year_order(w);
    case 2:
        return harm_budget(w);
    case 3:
    case 4:
        return harm_technology(w);
    case 5:
    case 6:
        return harm_application(w);
    case 7:
    case 8:
        return harm_bid(w);
    case 9:
        return repeat_price(w);
    case 10:
        return too_many_bids(w);
    case 11:
    case 12:
        return lower_lowest_bids(w);
    case 13:
        return harm_bid_twice(w);
    case 14:
        return move_to_limit(w);
    case 15:
        return harm_cap(w);
    default:
        return change_delivery_years(w);
    }
}

/* Faults of the file as a whole; nothing may rely on the layout after them. */
static bool harm_the_file(struct wreck *w)
{
    switch (rng_below(w->rng, 7)) {
    case 0:
    case 1:
        return cut(w);
    case 2:
        return append(w);
    case 3:
    case 4:
        return change_count(w);
    case 5:
        return change_what_is_added(w);
    default:
        return flip_bytes(w);
    }
}

static void until_done(struct wreck *w, bool (*harm)(struct wreck *))
{
    while (!harm(w))
        continue;
}

/* Faults in records are found by the fields as they stand, so a second one
 * works on the round as it was before the first was done. */
static void harm_two_records(struct wreck *w)
{
    uint8_t whole[MAKE_CAPACITY];
    uint8_t once[MAKE_CAPACITY];
    memcpy(whole, w->file, w->len);
    size_t len = w->len;
    until_done(w, harm_a_record);
    if (w->len != len)
        return; /* bids were added: leave it at one */
    memcpy(once, w->file, len);
    memcpy(w->file, whole, len);
    until_done(w, harm_a_record);
    for (size_t i = 0; i < len; i++)
        if (w->file[i] == whole[i])
            w->file[i] = once[i];
}

size_t damage(uint64_t seed, uint8_t *file, size_t len)
{
    struct rng rng = rng_from(seed, 4);
    struct wreck w = { &rng, file, len, layout_of(file) };
    unsigned kind = (unsigned)rng_below(&rng, 100);
    if (kind < 50) {
        until_done(&w, harm_a_record);
    } else if (kind < 65) {
        harm_two_records(&w);
    } else if (kind < 75) {
        until_done(&w, harm_a_record);
        until_done(&w, harm_the_file);
    } else {
        until_done(&w, harm_the_file);
    }
    return w.len;
}
