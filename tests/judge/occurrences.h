/* How often each refusal, outcome, reason, chain and tie occurred among the
 * files judged, as a table. */
#ifndef OCCURRENCES_H
#define OCCURRENCES_H

#include "judge.h"

/* Prints the table: what occurred in the rounds, and in all the files.  Answers
 * how many kinds are not as they should be: those that can occur and never did,
 * and those that cannot and did. */
unsigned print_occurrences(const struct judge_counts *of_rounds, const struct judge_counts *of_all);

#endif
