/* Gustmirror for C: a round file is cleared into a lent result.
 *
 * The library is one archive for x86-64 with these two functions. Both are proved to answer, for every file and every lent result, as the rules
 * say. They keep no state and have no globals: any number of threads may call them at once, each with a result of its own. They allocate
 * nothing, call nothing of the C library but memcpy and memset, and use about 190 KiB of stack: no function calls itself, and what a tie
 * needs does not grow with its combinations. docs/PERFORMANCE.md says how long a file may take. */
#ifndef GUSTMIRROR_H
#define GUSTMIRROR_H

#include <stdint.h>

#ifdef __cplusplus
extern "C" {
#endif

/* The longest file that is accepted, and the longest result. Of a longer file only its first GUSTMIRROR_LONGEST_FILE + 1 bytes matter: it is
 * refused, and for these bytes the refusal is the same. */
#define GUSTMIRROR_LONGEST_FILE 7898
#define GUSTMIRROR_LONGEST_RESULT 1486

/* How many bytes the result of a file needs: 6 + P(2 + 4D + 8Y) + 10N + 2B for P pots, D delivery years, Y years, N applications and B bids, or
 * 0 where the file is refused (by 1 to 11; gustmirror_clear says by which, whatever the length of its result).
 *
 * file, file_len: the file's bytes, only read. */
uint64_t gustmirror_result_len(const uint8_t *file, uint64_t file_len);

/* Clears a file into a lent result. The answer is 0 when it is cleared, otherwise the refusal's number × 2^32 + its offset in the file (number 12,
 * offset 0, where the lent result is too short).
 *
 * file, file_len: the file's bytes, only read.
 * result, result_len: the lent bytes. They may hold anything before, and may not overlap the file. When the file is cleared, exactly the first
 * gustmirror_result_len(file, file_len) of them are written, and those after stay as they were. On a refusal nothing is written.
 *
 * Numbers in the result are little-endian, without gaps: the count of pots (2 bytes), and for each pot its outcome (2; 0 administrative,
 * 1 auction, 2 a tie too wide: of 21 remaining bids or more), the clearing price of each delivery year (4; 4,294,967,295 for none) and the total of
 * each year (8); the count of applications (2), and for each won (2; 1 or 0), its bid (2; 65,535 none), its automatic reason (2; 0 where it had
 * sealed bids, otherwise 6, 7 or 8) and the price paid (4; 0 if lost); the count of bids (2), and for each its reason (2). Reasons are 1 won; 2
 * turned down alone; 3 turned down in a tie; 4 not looked at, its application won; 5 not looked at, otherwise; 6 outcome 0; 7 outcome 2; 8 no sealed
 * bid, outcome 1. Prices are tenths of a penny per MWh, totals pence. */
uint64_t gustmirror_clear(const uint8_t *file, uint64_t file_len, uint8_t *result, uint64_t result_len);

/* A refusal taken apart. */
#define GUSTMIRROR_NUMBER(answer) ((uint32_t)((answer) >> 32))
#define GUSTMIRROR_OFFSET(answer) ((uint32_t)(answer))

#ifdef __cplusplus
}
#endif

#endif
