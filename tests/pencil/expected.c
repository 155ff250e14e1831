/* expected SEED ROUND|TEXT: writes the round file made from SEED, or the text
 * that the program pencil must print for that file.
 * expected LAST KINDS: prints how often each kind of working occurs in the
 * texts of the seeds 1 to LAST, and fails if one never does.
 *
 * The values are worked out from document 01, with CR 5, 6 and 11 of 02, alone,
 * with no code of the library or the judge, so that a slip of theirs is not made here too. */
#include <stdbool.h>
#include <stdint.h>
#include <stdio.h>
#include <stdlib.h>
#include <string.h>

/* ---- numbers from a seed ---- */

struct rng {
    uint64_t state;
};

/* splitmix64 */
static uint64_t next(struct rng *rng)
{
    uint64_t z = (rng->state += 0x9E3779B97F4A7C15u);
    z = (z ^ (z >> 30)) * 0xBF58476D1CE4E5B9u;
    z = (z ^ (z >> 27)) * 0x94D049BB133111EBu;
    return z ^ (z >> 31);
}

static uint32_t between(struct rng *rng, uint32_t least, uint32_t most)
{
    return least + (uint32_t)(next(rng) % ((uint64_t)most - least + 1));
}

static bool chance(struct rng *rng, unsigned percent)
{
    return next(rng) % 100 < percent;
}

/* The longest and the shortest products need every factor at its limit at once,
 * so factors that belong together lean the same way. */
enum leaning { ANY, SMALL, LARGE };

static enum leaning some_leaning(struct rng *rng)
{
    return (enum leaning)between(rng, ANY, LARGE);
}

/* A number from least to most: often one of the two, or next to one, or of any
 * magnitude, or any at all. */
static uint32_t factor(struct rng *rng, enum leaning leaning, uint32_t least, uint32_t most)
{
    enum { LEANS = 70, MAGNITUDES = 19, CASES = 6 };
    if (leaning != ANY && chance(rng, LEANS))
        return leaning == SMALL ? least : most;
    switch (between(rng, 1, CASES)) {
    case 1:
        return least;
    case 2:
        return most;
    case 3:
        return least < most ? least + 1 : least;
    case 4:
        return least < most ? most - 1 : most;
    case 5:
        return least + between(rng, 0, (most - least) >> between(rng, 0, MAGNITUDES));
    default:
        return between(rng, least, most);
    }
}

/* Now and then the 0 that makes the whole product 0; else from least to most. */
static uint32_t factor_or_0(struct rng *rng, enum leaning leaning, uint32_t least, uint32_t most)
{
    enum { ZEROS = 6 };
    return chance(rng, ZEROS) ? 0 : factor(rng, leaning, least, most);
}

/* ---- the round ---- */

enum { YEARS = 8, DELIVERY = 4, MOST_POTS = 4, TECHNOLOGIES = 32, APPLICATIONS = 64 };
enum { BIDS_EACH = 4, MOST_BIDS_A_YEAR = 3, BIDS = APPLICATIONS * BIDS_EACH };
enum { MOST_PRICE = 500000, MOST_CAPACITY = 300000, ONE = 10000, PRICE_STEP = 10 };
enum { COMMON_DAYS = 365, LEAP_DAYS = 366, HOURS_A_DAY = 24 };
enum { MOST_CAP = 20000000, WITH_CAPS = 32768, WITH_DRAWN = 16384 };
#define MOST_BUDGET 1000000000000u
#define NO_CAP UINT32_MAX

struct year {
    uint32_t days, tlm;
};

struct technology {
    enum leaning leaning;
    uint32_t pot, rqm;
    uint32_t administrative[YEARS], reference[YEARS], load[YEARS];
};

struct application {
    uint32_t technology, days, draw, capacity;
    uint64_t declared;
};

struct bid {
    uint32_t application, year, days, capacity, price;
};

struct round {
    struct rng rng;
    uint32_t pots;
    struct year year[YEARS];
    uint64_t budget[MOST_POTS][YEARS];
    bool with_caps, with_drawn;
    uint32_t cap[MOST_POTS], drawn[MOST_POTS];
    struct technology technology[TECHNOLOGIES];
    struct application application[APPLICATIONS];
    struct bid bid[BIDS];
};

/* ---- years, pots, technologies and applications ---- */

static void make_years(struct round *round)
{
    struct rng *rng = &round->rng;
    for (unsigned y = 0; y < YEARS; y++) {
        round->year[y].days = chance(rng, 50) ? COMMON_DAYS : LEAP_DAYS;
        round->year[y].tlm = ONE - factor_or_0(rng, some_leaning(rng), 1, ONE);
    }
}

/* No budget bears on a bid's value: any will do. */
static void make_pots(struct round *round)
{
    struct rng *rng = &round->rng;
    round->pots = between(rng, 1, MOST_POTS);
    for (unsigned p = 0; p < round->pots; p++)
        for (unsigned y = 0; y < YEARS; y++)
            round->budget[p][y] = chance(rng, 10) ? MOST_BUDGET : next(rng) % MOST_BUDGET;
}

/* No cap bears on it either, but all that follows stands four bytes a pot
 * later. */
static void make_caps(struct round *round)
{
    struct rng *rng = &round->rng;
    round->with_caps = chance(rng, 50);
    for (unsigned p = 0; p < round->pots; p++)
        round->cap[p] = chance(rng, 25) ? NO_CAP : factor(rng, ANY, 0, MOST_CAP);
}

/* Nor any drawn number, which stands after a cap: four bytes more. */
static void make_drawn_numbers(struct round *round)
{
    struct rng *rng = &round->rng;
    round->with_drawn = round->with_caps && chance(rng, 50);
    for (unsigned p = 0; p < round->pots; p++)
        round->drawn[p] = factor(rng, ANY, 0, UINT32_MAX);
}

/* References come later: they are set by the prices that are bid. */
static void make_technologies(struct round *round)
{
    /* 10, 20, 30, 40: room for the bids of one application, all different */
    enum { LEAST_STEPS = BIDS_EACH, MOST_STEPS = MOST_PRICE / PRICE_STEP };
    struct rng *rng = &round->rng;
    for (unsigned t = 0; t < TECHNOLOGIES; t++) {
        struct technology *technology = &round->technology[t];
        enum leaning leaning = technology->leaning = some_leaning(rng);
        technology->pot = between(rng, 0, round->pots - 1);
        technology->rqm = factor_or_0(rng, leaning, 1, ONE);
        for (unsigned y = 0; y < YEARS; y++) {
            technology->load[y] = factor_or_0(rng, leaning, 1, ONE);
            technology->administrative[y] =
                y < DELIVERY ? PRICE_STEP * factor(rng, leaning, LEAST_STEPS, MOST_STEPS) : 0;
        }
    }
}

/* All start in year 0, so that their bids may start in any delivery year. */
static void make_applications(struct round *round)
{
    struct rng *rng = &round->rng;
    uint32_t draw = (uint32_t)next(rng), stride = (uint32_t)next(rng) | 1;
    for (unsigned a = 0; a < APPLICATIONS; a++) {
        struct application *application = &round->application[a];
        application->technology = between(rng, 0, TECHNOLOGIES - 1);
        enum leaning leaning = round->technology[application->technology].leaning;
        application->days = factor(rng, leaning, 1, round->year[0].days);
        application->draw = (draw + a * stride) & UINT16_MAX; /* an odd stride: all differ */
        application->capacity = factor(rng, leaning, 1, MOST_CAPACITY);
        application->declared = next(rng);
    }
}

/* ---- bids ---- */

/* Half the applications bid once in each delivery year, the others anyhow: of
 * bids in one year only the lowest need be a multiple of 10. */
static void choose_years(struct rng *rng, struct bid *bids)
{
    unsigned in_year[DELIVERY] = { 0 };
    bool each = chance(rng, 50);
    for (unsigned b = 0; b < BIDS_EACH; b++) {
        uint32_t y = each ? b : between(rng, 0, DELIVERY - 1);
        while (in_year[y] == MOST_BIDS_A_YEAR)
            y = between(rng, 0, DELIVERY - 1);
        in_year[y]++;
        bids[b].year = y;
    }
}

/* The wanted price of bid b, down to a multiple of 10 if it is the lowest so far
 * of its year: then so is the price that is lowest in the end. */
static uint32_t lawful_price(const struct bid *bids, unsigned b, uint32_t wanted)
{
    for (unsigned other = 0; other < b; other++)
        if (bids[other].year == bids[b].year && bids[other].price < wanted)
            return wanted;
    return wanted - wanted % PRICE_STEP;
}

static bool priced_before(const struct bid *bids, unsigned b, uint32_t price)
{
    for (unsigned other = 0; other < b; other++)
        if (bids[other].price == price)
            return true;
    return false;
}

static void choose_price(struct round *round, struct bid *bids, unsigned b)
{
    const struct application *application = &round->application[bids[b].application];
    const struct technology *technology = &round->technology[application->technology];
    uint32_t most = technology->administrative[bids[b].year], price;
    do {
        price = factor_or_0(&round->rng, technology->leaning, PRICE_STEP, most);
        price = lawful_price(bids, b, price);
    } while (priced_before(bids, b, price));
    bids[b].price = price;
}

static void make_bids_of(struct round *round, unsigned a, struct bid *bids)
{
    struct rng *rng = &round->rng;
    const struct application *application = &round->application[a];
    enum leaning leaning = round->technology[application->technology].leaning;
    choose_years(rng, bids);
    for (unsigned b = 0; b < BIDS_EACH; b++) {
        struct bid *bid = &bids[b];
        uint32_t most_days = bid->year == 0 ? application->days : round->year[bid->year].days;
        bid->application = a;
        bid->days = factor(rng, leaning, 1, most_days);
        bid->capacity = factor(rng, leaning, 1, application->capacity);
        choose_price(round, bids, b);
    }
}

/* Shuffled, so that a bid's place in the file does not give its application. */
static void make_bids(struct round *round)
{
    for (unsigned a = 0; a < APPLICATIONS; a++)
        make_bids_of(round, a, &round->bid[a * BIDS_EACH]);
    for (unsigned b = BIDS - 1; b > 0; b--) {
        unsigned other = between(&round->rng, 0, b);
        struct bid kept = round->bid[b];
        round->bid[b] = round->bid[other];
        round->bid[other] = kept;
    }
}

/* ---- references ---- */

/* A price bid with this technology; 0 if there is none. */
static uint32_t price_with(struct round *round, unsigned t)
{
    unsigned from = between(&round->rng, 0, BIDS - 1);
    for (unsigned i = 0; i < BIDS; i++) {
        const struct bid *bid = &round->bid[(from + i) % BIDS];
        if (round->application[bid->application].technology == t)
            return bid->price;
    }
    return 0;
}

/* The lower of two, so that most bids are above it and have a value. */
static uint32_t low_price_with(struct round *round, unsigned t)
{
    uint32_t price = price_with(round, t), other = price_with(round, t);
    return price < other ? price : other;
}

/* About some price: equal to it, one unit below, anywhere below; or no matter
 * where.  A small difference or a large one, as the technology leans. */
static uint32_t some_reference(struct round *round, unsigned t)
{
    enum { LEANS = 60, CASES = 10 };
    struct rng *rng = &round->rng;
    enum leaning leaning = round->technology[t].leaning;
    uint32_t price = low_price_with(round, t), one_below = price > 0 ? price - 1 : 0;
    if (leaning != ANY && chance(rng, LEANS))
        return leaning == SMALL ? one_below : 0;
    switch (between(rng, 1, CASES)) {
    case 1:
        return 0;
    case 2:
        return MOST_PRICE;
    case 3:
        return price;
    case 4:
        return one_below;
    case 5:
        return factor(rng, ANY, 0, MOST_PRICE);
    default:
        return between(rng, 0, price);
    }
}

static void make_round(struct round *round, uint64_t seed)
{
    memset(round, 0, sizeof *round);
    round->rng.state = seed;
    make_years(round);
    make_pots(round);
    make_technologies(round);
    make_applications(round);
    make_bids(round);
    for (unsigned t = 0; t < TECHNOLOGIES; t++)
        for (unsigned y = 0; y < YEARS; y++)
            round->technology[t].reference[y] = some_reference(round, t);
    make_caps(round);
    make_drawn_numbers(round);
}

/* ---- the file ---- */

static void put(uint64_t number, unsigned bytes)
{
    for (unsigned i = 0; i < bytes; i++)
        printf("%c", (int)(number >> 8 * i & UINT8_MAX));
}

static void write_years_and_pots(const struct round *round)
{
    put(YEARS, 2);
    for (unsigned y = 0; y < YEARS; y++) {
        put(round->year[y].days, 2);
        put(y < DELIVERY, 2);
        put(round->year[y].tlm, 2);
    }
    put(round->pots + (round->with_caps ? WITH_CAPS : 0) + (round->with_drawn ? WITH_DRAWN : 0), 2);
    for (unsigned p = 0; p < round->pots; p++) {
        for (unsigned y = 0; y < YEARS; y++)
            put(round->budget[p][y], 8);
        if (round->with_caps)
            put(round->cap[p], 4);
        if (round->with_drawn)
            put(round->drawn[p], 4);
    }
}

static void write_technologies(const struct round *round)
{
    put(TECHNOLOGIES, 2);
    for (unsigned t = 0; t < TECHNOLOGIES; t++) {
        const struct technology *technology = &round->technology[t];
        put(technology->pot, 2);
        put(technology->rqm, 2);
        for (unsigned y = 0; y < YEARS; y++) {
            put(technology->administrative[y], 4);
            put(technology->reference[y], 4);
            put(technology->load[y], 2);
        }
    }
}

static void write_applications(const struct round *round)
{
    put(APPLICATIONS, 2);
    for (unsigned a = 0; a < APPLICATIONS; a++) {
        const struct application *application = &round->application[a];
        put(application->technology, 2);
        put(0, 2); /* the year */
        put(application->days, 2);
        put(application->draw, 2);
        put(application->capacity, 4);
        put(application->declared, 8);
    }
}

static void write_bids(const struct round *round)
{
    put(BIDS, 2);
    for (unsigned b = 0; b < BIDS; b++) {
        const struct bid *bid = &round->bid[b];
        put(bid->application, 2);
        put(bid->year, 2);
        put(bid->days, 2);
        put(bid->capacity, 4);
        put(bid->price, 4);
    }
}

static void write_round(const struct round *round)
{
    write_years_and_pots(round);
    write_technologies(round);
    write_applications(round);
    write_bids(round);
}

/* ---- the working of one bid in one year ---- */

typedef unsigned __int128 wide; /* a product has up to 28 digits */

enum { LINES = 5, MOST_DIGITS = 28 };
enum { PENCE_TO_THE_POUND = 100 };
static const wide PARTS_TO_THE_PENNY = 1000000000000000u; /* 10^15 */

/* The divisions in their order; the scales together are 10^15. */
static const struct {
    const char *name;
    uint32_t scale;
} lines[LINES] = {
    { "over 10: price", 10 },
    { "over 10,000: load factor", 10000 },
    { "over 100: capacity", 100 },
    { "over 10,000: 1 - TLM", 10000 },
    { "over 10,000: RQM", 10000 },
};

struct working {
    uint32_t price, reference, difference, load, hours, capacity, kept, rqm;
    wide product, over[LINES], value; /* in pence */
};

static wide divided_up(wide number, wide by)
{
    return number / by + (number % by > 0);
}

static uint32_t hours_in(const struct round *round, const struct bid *bid, unsigned y)
{
    if (y < bid->year)
        return 0;
    return HOURS_A_DAY * (y == bid->year ? bid->days : round->year[y].days);
}

/* The value is not the last of the lines: it is the product over 10^15, rounded
 * up once to a whole penny, as the document has it. */
static struct working work(const struct round *round, const struct bid *bid, unsigned y)
{
    const struct application *application = &round->application[bid->application];
    const struct technology *technology = &round->technology[application->technology];
    struct working w = {
        .price = bid->price,
        .reference = technology->reference[y],
        .load = technology->load[y],
        .hours = hours_in(round, bid, y),
        .capacity = bid->capacity,
        .kept = ONE - round->year[y].tlm,
        .rqm = technology->rqm,
    };
    w.difference = w.price > w.reference ? w.price - w.reference : 0;
    w.product = (wide)w.difference * w.load * w.hours * w.capacity * w.kept * w.rqm;
    wide above = w.product;
    for (unsigned s = 0; s < LINES; s++)
        above = w.over[s] = divided_up(above, lines[s].scale);
    w.value = divided_up(w.product, PARTS_TO_THE_PENNY);
    return w;
}

/* ---- the text ---- */

enum { ROOM = 64, NAME_WIDTH = 26, NUMBER_WIDTH = 37 };

/* The number with commas, written to end before this place; answers its start. */
static char *write_before(char *at, wide number)
{
    enum { GROUP = 3 };
    unsigned digits = 0;
    do {
        if (digits > 0 && digits % GROUP == 0)
            *--at = ',';
        *--at = (char)('0' + (unsigned)(number % 10));
        number /= 10;
        digits++;
    } while (number > 0);
    return at;
}

static void print_line(const char *name, wide number)
{
    char room[ROOM];
    room[ROOM - 1] = '\0';
    printf("  %-*s%*s\n", NAME_WIDTH, name, NUMBER_WIDTH, write_before(room + ROOM - 1, number));
}

/* Pounds and pence as people write them.  The pound sign is one character of
 * two bytes, and widths are counted in bytes. */
static void print_money(const char *name, wide pence)
{
    static const char sign[] = "\xC2\xA3";
    enum { SIGN_BYTES = sizeof sign - 1, WIDTH_IN_BYTES = NUMBER_WIDTH - 1 + SIGN_BYTES };
    char room[ROOM], whole[ROOM];
    room[ROOM - 1] = '\0';
    snprintf(whole, sizeof whole, "%s%s.%02u", sign,
             write_before(room + ROOM - 1, pence / PENCE_TO_THE_POUND),
             (unsigned)(pence % PENCE_TO_THE_POUND));
    printf("  %-*s%*s\n", NAME_WIDTH, name, WIDTH_IN_BYTES, whole);
}

static void print_working(const struct working *w)
{
    print_line("price", w->price);
    print_line("reference", w->reference);
    print_line("price less reference", w->difference);
    print_line("load factor", w->load);
    print_line("hours", w->hours);
    print_line("capacity", w->capacity);
    print_line("1 - TLM", w->kept);
    print_line("RQM", w->rqm);
    print_line("product", w->product);
    for (unsigned s = 0; s < LINES; s++)
        print_line(lines[s].name, w->over[s]);
    print_money("value", w->value);
}

static void print_text(const struct round *round)
{
    for (unsigned b = 0; b < BIDS; b++) {
        printf("bid %u\n", b);
        for (unsigned y = 0; y < YEARS; y++) {
            struct working w = work(round, &round->bid[b], y);
            printf("year %u\n", y);
            print_working(&w);
        }
    }
}

/* ---- the kinds that must occur ---- */

/* A name, and when a working w is of that kind.  Hours are 0 only before the
 * start, since a bid has at least one day. */
#define KINDS(KIND) \
    KIND("product 0", w->product == 0) \
    KIND("product above 0 and below 10^15", w->product > 0 && w->product < PARTS_TO_THE_PENNY) \
    KIND("product above 0, a multiple of 10^15", \
         w->product > 0 && w->product % PARTS_TO_THE_PENNY == 0) \
    KIND("product of 28 digits", digits_of(w->product) == MOST_DIGITS) \
    KIND("value of pence below ten", w->value > 0 && w->value < 10) \
    KIND("value of pence from ten", w->value >= 10 && w->value < PENCE_TO_THE_POUND) \
    KIND("value of whole pounds", w->value > 0 && w->value % PENCE_TO_THE_POUND == 0) \
    KIND("value of pounds and pence below ten", \
         w->value > PENCE_TO_THE_POUND && w->value % PENCE_TO_THE_POUND > 0 \
             && w->value % PENCE_TO_THE_POUND < 10) \
    KIND("value of pounds below a thousand", \
         w->value >= PENCE_TO_THE_POUND && w->value < 1000 * PENCE_TO_THE_POUND) \
    KIND("value of thousands of pounds", w->value >= 1000 * PENCE_TO_THE_POUND) \
    KIND("price below reference", w->price < w->reference) \
    KIND("price equal to reference", w->price == w->reference) \
    KIND("price one unit above reference", w->price == w->reference + 1) \
    KIND("hours 0, the year before the start", w->hours == 0) \
    KIND("hours of 1 day", w->hours == HOURS_A_DAY) \
    KIND("hours of 366 days", w->hours == HOURS_A_DAY * LEAP_DAYS) \
    KIND("price 0", w->price == 0) \
    KIND("price not a multiple of 10", w->price % PRICE_STEP > 0) \
    KIND("price 500,000", w->price == MOST_PRICE) \
    KIND("reference 0", w->reference == 0) \
    KIND("reference 500,000", w->reference == MOST_PRICE) \
    KIND("load factor 0", w->load == 0) \
    KIND("load factor 1", w->load == 1) \
    KIND("load factor 10,000", w->load == ONE) \
    KIND("capacity 1", w->capacity == 1) \
    KIND("capacity 300,000", w->capacity == MOST_CAPACITY) \
    KIND("TLM 0", w->kept == ONE) \
    KIND("TLM 9,999", w->kept == 1) \
    KIND("TLM 10,000", w->kept == 0) \
    KIND("RQM 0", w->rqm == 0) \
    KIND("RQM 1", w->rqm == 1) \
    KIND("RQM 10,000", w->rqm == ONE)

#define ONE_EACH(name, holds) +1
enum { KIND_COUNT = 0 KINDS(ONE_EACH) };

static uint64_t of_kind[KIND_COUNT], of_digits[MOST_DIGITS + 1];
static uint64_t nothing_over[LINES], something_over[LINES];
static uint64_t with_drawn_numbers, with_caps_alone, without_caps;
static bool missing;

static unsigned digits_of(wide number)
{
    unsigned digits = 1;
    while (number >= 10) {
        number /= 10;
        digits++;
    }
    return digits;
}

/* A 0 divided says nothing of the rounding and is not counted. */
static void count_divisions(const struct working *w)
{
    wide above = w->product;
    for (unsigned s = 0; s < LINES && above > 0; s++) {
        if (above % lines[s].scale == 0)
            nothing_over[s]++;
        else
            something_over[s]++;
        above = w->over[s];
    }
}

static void count_working(const struct working *w)
{
    unsigned kind = 0;
#define COUNT(name, holds) of_kind[kind++] += (holds);
    KINDS(COUNT)
    of_digits[digits_of(w->product)]++;
    count_divisions(w);
}

static void count_round(const struct round *round)
{
    with_drawn_numbers += round->with_drawn;
    with_caps_alone += round->with_caps && !round->with_drawn;
    without_caps += !round->with_caps;
    for (unsigned b = 0; b < BIDS; b++)
        for (unsigned y = 0; y < YEARS; y++) {
            struct working w = work(round, &round->bid[b], y);
            count_working(&w);
        }
}

static void must_occur(const char *name, const char *more, uint64_t count)
{
    char whole[64];
    snprintf(whole, sizeof whole, "%s%s", name, more);
    printf("  %-46s %10llu%s\n", whole, (unsigned long long)count,
           count == 0 ? "   NEVER OCCURRED" : "");
    missing |= count == 0;
}

/* Among the lengths 0 and 28 digits have been named already, and no other product
 * has 1 digit, hours being at least 24. */
static void print_kinds(void)
{
    unsigned kind = 0;
#define PRINT(name, holds) must_occur(name, "", of_kind[kind++]);
    KINDS(PRINT)
    for (unsigned s = 0; s < LINES; s++) {
        must_occur(lines[s].name, ", nothing left over", nothing_over[s]);
        must_occur(lines[s].name, ", something left over", something_over[s]);
    }
    for (unsigned digits = 2; digits < MOST_DIGITS; digits++) {
        char name[32];
        snprintf(name, sizeof name, "product of %u digits", digits);
        must_occur(name, "", of_digits[digits]);
    }
    must_occur("rounds with drawn numbers", "", with_drawn_numbers);
    must_occur("rounds with caps alone", "", with_caps_alone);
    must_occur("rounds without caps", "", without_caps);
}

/* ---- the three uses ---- */

int main(int argc, char **argv)
{
    static struct round round;
    if (argc != 3)
        return 2;
    uint64_t seed = strtoull(argv[1], NULL, 10);
    if (strcmp(argv[2], "KINDS") == 0) {
        for (uint64_t each = 1; each <= seed; each++) {
            make_round(&round, each);
            count_round(&round);
        }
        print_kinds();
        return missing;
    }
    make_round(&round, seed);
    if (strcmp(argv[2], "ROUND") == 0)
        write_round(&round);
    else if (strcmp(argv[2], "TEXT") == 0)
        print_text(&round);
    else
        return 2;
    return 0;
}
