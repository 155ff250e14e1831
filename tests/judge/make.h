/* Makers of round files from a seed.  The same seed makes the same bytes. */
#ifndef MAKE_H
#define MAKE_H

#include <stddef.h>
#include <stdint.h>

enum {
    MAKE_MAX_ROUND = 7898,
    MAKE_CAPACITY = 8192 /* every buffer handed to a maker has this many bytes */
};

/* A small own generator (splitmix64). */
struct rng {
    uint64_t state;
};
uint64_t rng_next(struct rng *rng);
uint64_t rng_below(struct rng *rng, uint64_t limit);
int rng_chance(struct rng *rng, unsigned percent);

/* A well-formed round of at most MAKE_MAX_ROUND bytes; answers its length. */
size_t make_round(uint64_t seed, uint8_t *out);

/* A well-formed round of a single pot and 1 to 4 delivery years. */
size_t make_pot(uint64_t seed, uint8_t *out);

/* Round A of document 01, the same with a cap, with a drawn number as well, and
 * the largest file (with drawn numbers, 7,898 bytes, accepted). */
size_t make_round_a(uint8_t *out);
size_t make_round_a_with_cap(uint32_t cap, uint8_t *out);
size_t make_round_a_drawn(uint32_t cap, uint32_t drawn, uint8_t *out);
size_t make_largest(uint8_t *out);

/* Wide ties by hand: two that are drawn from, one after the other, and 15, 16, 17
 * and 20 that remain, and 21 and 22, which are too many. */
enum { MAKE_WIDE = 8 };
size_t make_wide(unsigned which, uint8_t *out);

/* Damages a well-formed round in place and answers its new length, at most
 * MAKE_CAPACITY.  Some damages leave a file that is still accepted (a field
 * moved to its very limit, a byte flipped where any will do). */
size_t damage(uint64_t seed, uint8_t *file, size_t len);

#endif
