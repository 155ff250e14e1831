/* host FILE: an example of a program that clears a round through the library. It prints the price that each winner is paid, in pounds per MWh, or
 * the refusal. */
#include "gustmirror.h"

#include <stdio.h>

static uint64_t number(const uint8_t *at, unsigned bytes)
{
    uint64_t n = 0;
    for (unsigned i = 0; i < bytes; i++)
        n |= (uint64_t)at[i] << (8 * i);
    return n;
}

/* Where the applications of a result start: after the pots, whose records are as long as the file's years ask. */
static const uint8_t *applications_of(const uint8_t *file, const uint8_t *result)
{
    unsigned years = (unsigned)number(file, 2), delivery_years = 0;
    for (unsigned y = 0; y < years; y++)
        delivery_years += (unsigned)number(file + 2 + 6 * y + 2, 2);
    return result + 2 + number(result, 2) * (2 + 4 * delivery_years + 8 * years);
}

static void print_winners(const uint8_t *file, const uint8_t *result)
{
    const uint8_t *applications = applications_of(file, result);
    unsigned count = (unsigned)number(applications, 2);
    for (unsigned i = 0; i < count; i++) {
        const uint8_t *application = applications + 2 + 10 * i;
        unsigned price = (unsigned)number(application + 6, 4);
        if (number(application, 2) == 1)
            printf("application %u is paid %u.%03u\n", i, price / 1000, price % 1000);
    }
}

/* One byte more than the longest file is read, so that a file that is too long is refused for its own reason. */
static int read_file(const char *name, uint8_t *file, uint64_t *len)
{
    FILE *stream = fopen(name, "rb");
    if (stream == NULL)
        return 0;
    *len = fread(file, 1, GUSTMIRROR_LONGEST_FILE + 1, stream);
    int read = !ferror(stream);
    fclose(stream);
    return read;
}

int main(int argc, char **argv)
{
    static uint8_t file[GUSTMIRROR_LONGEST_FILE + 1], result[GUSTMIRROR_LONGEST_RESULT];
    uint64_t len;
    if (argc != 2 || !read_file(argv[1], file, &len)) {
        fprintf(stderr, "usage: host FILE\n");
        return 2;
    }
    uint64_t needed = gustmirror_result_len(file, len);
    uint64_t answer = gustmirror_clear(file, len, result, needed);
    if (answer != 0) {
        printf("refused %u at %u\n", GUSTMIRROR_NUMBER(answer), GUSTMIRROR_OFFSET(answer));
        return 1;
    }
    print_winners(file, result);
    return 0;
}
