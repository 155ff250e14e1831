/* compare ROUNDS DAMAGED SEED: the library is held to the judge, byte for byte,
 * on made rounds, on damaged ones and on files put together at random.  The
 * last line is `N passed, M failed`, N counting files. */
#include "gustmirror.h"
#include "judge.h"
#include "make.h"
#include "occurrences.h"

#include <stdio.h>
#include <stdlib.h>
#include <string.h>

enum {
    GUARD = 64,                      /* bytes watched before and after what is lent */
    LENT_BEYOND = 64,                /* a result is lent up to so many bytes too long */
    MOST_LENT = JUDGE_MAX_RESULT + LENT_BEYOND,
    REPORTS = 10                     /* differences that are printed */
};

struct lent {
    uint8_t before[GUARD], bytes[MOST_LENT], after[GUARD];
};

static struct rng rng;
static uint64_t passed, failed;

/* ---- one call of the library beside one of the judge ---- */

/* Bytes that no result is likely to have at these places. */
static void set_pattern(struct lent *lent, uint64_t pattern)
{
    uint8_t *p = lent->before;
    for (size_t i = 0; i < sizeof *lent; i++)
        p[i] = (uint8_t)(0xA5 + pattern + 167 * i);
}

static bool unchanged_but(const struct lent *lent, const struct lent *pattern, uint64_t written)
{
    return memcmp(lent->before, pattern->before, GUARD) == 0
        && memcmp(lent->bytes + written, pattern->bytes + written, MOST_LENT - written) == 0
        && memcmp(lent->after, pattern->after, GUARD) == 0;
}

static bool differs(const char *what, uint64_t library, uint64_t judge)
{
    if (failed < REPORTS)
        printf("%s: library %llu, judge %llu\n", what, (unsigned long long)library,
               (unsigned long long)judge);
    return false;
}

/* The answer, every byte of the result, and every byte that must stay. */
static bool same_clearing(const uint8_t *file, uint64_t len, uint64_t lent_len, uint64_t needed)
{
    static struct lent library, judge, pattern;
    set_pattern(&pattern, rng_next(&rng));
    library = judge = pattern;
    uint64_t answer = gustmirror_clear(file, len, library.bytes, lent_len);
    uint64_t judged = judge_clear(file, len, judge.bytes, lent_len);
    if (answer != judged)
        return differs("answer", answer, judged);
    for (size_t i = 0; i < MOST_LENT; i++)
        if (library.bytes[i] != judge.bytes[i])
            return differs("a byte of the result", library.bytes[i], judge.bytes[i]);
    if (!unchanged_but(&library, &pattern, answer == 0 ? needed : 0))
        return differs("a byte that must stay changed", 1, 0);
    return true;
}

/* A result that is too short: refusal 12, and nothing is written. */
static bool same_where_short(const uint8_t *file, uint64_t len, uint64_t lent_len, uint64_t needed)
{
    static struct lent library, pattern;
    set_pattern(&pattern, rng_next(&rng));
    library = pattern;
    judge_counts.refusal[12]++;
    uint64_t answer = gustmirror_clear(file, len, library.bytes, lent_len);
    if (answer != (uint64_t)12 << 32 || !unchanged_but(&library, &pattern, 0))
        return differs("answer for a short result", answer, (uint64_t)12 << 32);
    return same_clearing(file, len, lent_len, needed);
}

/* ---- one file ---- */

/* Every sixteenth result is lent too short as well; of the others half are lent
 * just long enough, and half too long. */
static bool same_on(const uint8_t *file, uint64_t len)
{
    judge_counting = false;
    uint64_t needed = judge_result_len(file, len), answered = gustmirror_result_len(file, len);
    if (answered != needed)
        return differs("length of the result", answered, needed);
    if (needed > 0 && rng_below(&rng, 16) == 0
        && !same_where_short(file, len, rng_below(&rng, needed), needed))
        return false;
    uint64_t lent_len = needed > 0 ? needed + rng_chance(&rng, 50) * rng_below(&rng, LENT_BEYOND + 1)
                                   : rng_below(&rng, MOST_LENT + 1);
    judge_counting = true;
    return same_clearing(file, len, lent_len, needed);
}

static void compare(const char *kind, uint64_t seed, const uint8_t *file, uint64_t len)
{
    static uint8_t kept[MAKE_CAPACITY];
    memcpy(kept, file, len);
    bool same = same_on(file, len);
    if (same && memcmp(kept, file, len) != 0)
        same = differs("a byte of the file changed", 1, 0);
    if (!same && failed < REPORTS)
        printf("  in the %s of seed %llu, %llu bytes\n", kind, (unsigned long long)seed,
               (unsigned long long)len);
    passed += same;
    failed += !same;
}

/* ---- the files ---- */

/* The head of one round and the tail of another. */
static size_t splice(uint64_t seed, uint8_t *file)
{
    static uint8_t other[MAKE_CAPACITY];
    size_t len = make_round(seed, file), other_len = make_round(seed + 1, other);
    size_t at = (size_t)rng_below(&rng, len < other_len ? len : other_len);
    memcpy(file + at, other + at, other_len - at);
    return other_len;
}

/* Any bytes, bytes of small numbers, or bytes below 4. */
static size_t random_bytes(uint8_t *file)
{
    size_t len = (size_t)rng_below(&rng, rng_chance(&rng, 50) ? 64 : MAKE_CAPACITY);
    unsigned small = (unsigned)rng_below(&rng, 3);
    for (size_t i = 0; i < len; i++) {
        file[i] = (uint8_t)rng_next(&rng);
        if (small == 1 && i % 2 == 1)
            file[i] = 0;
        if (small == 2)
            file[i] &= 3;
    }
    return len;
}

static void compare_cuts(const char *kind, const uint8_t *file, size_t len)
{
    for (size_t cut = 0; cut <= len; cut++)
        compare(kind, cut, file, cut);
}

/* Every cut of round A, with a drawn number, with a cap and without, and every
 * length of its result from 0 to what it needs and beyond. */
static void compare_round_a(uint8_t *file)
{
    size_t len = make_round_a_drawn(200, 1, file);
    compare_cuts("cut round A with a drawn number", file, len);
    len = make_round_a_with_cap(200, file);
    compare_cuts("cut round A with a cap", file, len);
    len = make_round_a(file);
    compare_cuts("cut round A", file, len);
    uint64_t needed = judge_result_len(file, len);
    judge_counting = false;
    for (uint64_t lent_len = 0; lent_len <= needed + LENT_BEYOND; lent_len++) {
        bool same = lent_len < needed ? same_where_short(file, len, lent_len, needed)
                                      : same_clearing(file, len, lent_len, needed);
        if (!same && failed < REPORTS)
            printf("  in round A with %llu bytes lent\n", (unsigned long long)lent_len);
        passed += same;
        failed += !same;
    }
    len = make_largest(file);
    compare("largest file", 0, file, len);
}

static void compare_rounds(uint64_t count, uint64_t seed, uint8_t *file)
{
    compare_round_a(file);
    for (unsigned i = 0; i < MAKE_WIDE; i++)
        compare("wide tie", i, file, make_wide(i, file));
    for (uint64_t i = 0; i < count; i++)
        if (i % 4 == 3)
            compare("pot", seed + i, file, make_pot(seed + i, file));
        else
            compare("round", seed + i, file, make_round(seed + i, file));
}

/* ---- files that the library must not tell apart ---- */

static uint64_t two_bytes(const uint8_t *p)
{
    return p[0] + 256u * p[1];
}

/* The library answers both files alike, and leaves the same bytes. */
static bool alike(const uint8_t *file, uint64_t len, const uint8_t *other, uint64_t other_len)
{
    static struct lent one, two;
    set_pattern(&one, 0);
    two = one;
    uint64_t answer = gustmirror_clear(file, len, one.bytes, MOST_LENT);
    uint64_t answered = gustmirror_clear(other, other_len, two.bytes, MOST_LENT);
    if (answer != answered)
        return differs("answers of files alike", answer, answered);
    if (memcmp(&one, &two, sizeof one) != 0)
        return differs("results of files alike", 1, 0);
    return true;
}

/* A file longer than any round is refused for its first bytes alone. */
static void compare_longer(uint64_t seed, uint8_t *file)
{
    size_t len = seed % 8 == 0 ? make_largest(file) : make_round(seed, file);
    size_t longer = JUDGE_MAX_FILE + 1 + (size_t)rng_below(&rng, MAKE_CAPACITY - JUDGE_MAX_FILE);
    for (size_t i = len; i < longer; i++)
        file[i] = (uint8_t)rng_next(&rng);
    compare("longer file", seed, file, longer);
    bool same = alike(file, longer, file, JUDGE_MAX_FILE + 1);
    passed += same;
    failed += !same;
}

/* No declared cost enters: a round, or a damaged one, with others. */
static void compare_declared(uint64_t seed, uint8_t *file)
{
    static uint8_t other[MAKE_CAPACITY];
    enum { YEAR = 6, BUDGET = 8, CAP = 4, DRAWN = 4, HEAD = 4, TECHNOLOGY_YEAR = 10, APPLICATION = 20, COST = 12, COST_BYTES = 8 };
    enum { BOTH = JUDGE_WITH_CAPS + JUDGE_WITH_DRAWN };
    size_t len = make_round(seed, file);
    uint64_t years = two_bytes(file), pots_at = 2 + years * YEAR, pots = two_bytes(file + pots_at);
    uint64_t pot_bytes = years * BUDGET + (pots >= JUDGE_WITH_CAPS ? CAP : 0) + (pots >= BOTH ? DRAWN : 0);
    uint64_t technologies_at = pots_at + 2 + pots % JUDGE_WITH_DRAWN * pot_bytes, technologies = two_bytes(file + technologies_at);
    uint64_t applications_at = technologies_at + 2 + technologies * (HEAD + years * TECHNOLOGY_YEAR);
    uint64_t applications = two_bytes(file + applications_at);
    if (seed % 2 == 0)
        file[rng_below(&rng, applications_at)] ^= 1 << rng_below(&rng, 3);
    if (two_bytes(file) != years || two_bytes(file + pots_at) != pots || two_bytes(file + technologies_at) != technologies)
        return;
    memcpy(other, file, len);
    for (uint64_t a = 0; a < applications; a++)
        for (unsigned i = 0; i < COST_BYTES; i++)
            other[applications_at + 2 + a * APPLICATION + COST + i] = (uint8_t)rng_next(&rng);
    bool same = alike(file, len, other, len);
    passed += same;
    failed += !same;
}

/* For every ten damaged rounds, one spliced from two, one of random bytes, one that goes on, and one with other declared costs. */
static void compare_others(uint64_t count, uint64_t seed, uint8_t *file)
{
    for (uint64_t i = 0; i < count; i++) {
        compare("damaged round", seed + i, file, damage(seed + i, file, make_round(seed + i, file)));
        if (i % 10 != 0)
            continue;
        compare("splice", seed + i, file, splice(seed + i, file));
        compare("random bytes", i, file, random_bytes(file));
        compare_longer(seed + i, file);
        compare_declared(seed + i / 10, file);
    }
}

int main(int argc, char **argv)
{
    static uint8_t file[MAKE_CAPACITY];
    static struct judge_counts of_rounds;
    if (argc != 4) {
        fprintf(stderr, "usage: compare ROUNDS DAMAGED SEED\n");
        return 2;
    }
    uint64_t rounds = strtoull(argv[1], NULL, 10), damaged = strtoull(argv[2], NULL, 10);
    uint64_t seed = strtoull(argv[3], NULL, 10) << 32;
    rng.state = seed;
    compare_rounds(rounds, seed, file);
    of_rounds = judge_counts;
    compare_others(damaged, seed, file);
    unsigned wrong = print_occurrences(&of_rounds, &judge_counts);
    printf("%llu rounds and %llu damaged ones, splices and random bytes among these; seed %s\n",
           (unsigned long long)rounds, (unsigned long long)damaged, argv[3]);
    printf("%llu passed, %llu failed\n", (unsigned long long)passed,
           (unsigned long long)failed + wrong);
    return failed + wrong != 0;
}
