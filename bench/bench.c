/* The benchmark: how long one search takes on the bundle in standard input.
 *
 *     bench PERSON ENTITY ROLE <BUNDLE
 *
 * It repeats the search for one second and at least ten times, and prints the answer, its rounds, the lines of its slip, and
 * the shortest time of all in microseconds, as the end of a line of the table that bench/run prints. */
#include "clock.h"
#include "portertrunk.h"
#include <stdio.h>

extern int atoi(const char *text);

static uint8_t bundle[PORTERTRUNK_BUNDLE_BYTES + 1];
static uint32_t sure[PORTERTRUNK_WORDS];
static uint32_t possible[PORTERTRUNK_WORDS];
static uint8_t slip[PORTERTRUNK_SLIP_BYTES];

static const char *in_words(uint64_t result) {
    static const char *const words[] = {"REFUSED", "YES", "NO", "UNSURE"};
    return words[portertrunk_verdict(result)];
}

int main(int count, char **words) {
    if (count != 4) {
        fputs("usage: bench PERSON ENTITY ROLE <BUNDLE\n", stderr);
        return 1;
    }
    uint8_t person = (uint8_t)atoi(words[1]), entity = (uint8_t)atoi(words[2]), role = (uint8_t)atoi(words[3]);
    size_t bundle_bytes = fread(bundle, 1, sizeof bundle, stdin);
    uint64_t result = 0;
    long best = -1, start = nanoseconds();
    for (long done = 0; once_more(done, start); done++) {
        long before = nanoseconds();
        result = portertrunk_search(bundle, bundle_bytes, person, entity, role, sure, PORTERTRUNK_WORDS, possible,
                                    PORTERTRUNK_WORDS, slip, PORTERTRUNK_SLIP_BYTES);
        best = shorter(best, nanoseconds() - before);
    }
    printf("%-8s %6u %6u %14.1f\n", in_words(result), portertrunk_rounds(result), portertrunk_lines(result),
           (double)best / 1000.0);
    return portertrunk_number(result) != 0;
}
