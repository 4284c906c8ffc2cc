/* The benchmark of the lists: how long one list takes on the bundle in standard input, and how long its tables alone.
 *
 *     bench_lists members ENTITY ROLE <BUNDLE
 *     bench_lists roles PERSON <BUNDLE
 *
 * It repeats the tables and the list in turn for one second and at least ten times, and prints the bytes of the list, the
 * shortest time of the tables and of the list in microseconds, and the list's time in hundredths of the tables', as the end
 * of a line of the table that bench/run prints. */
#include "clock.h"
#include "portertrunk.h"
#include <stdio.h>

extern int atoi(const char *text);

/* The functions of crates/timed. */
extern uint64_t timed_tables(const uint8_t *bundle, size_t bundle_bytes, uint32_t *sure, size_t sure_words, uint32_t *possible,
                             size_t possible_words);
extern uint64_t timed_members(const uint8_t *bundle, size_t bundle_bytes, uint8_t entity, uint8_t role, uint8_t *text,
                              size_t text_bytes);
extern uint64_t timed_roles(const uint8_t *bundle, size_t bundle_bytes, uint8_t person, uint8_t *text, size_t text_bytes);

/* No list is as long: it has a line of at most 12 bytes for each word of a table, and one more. */
#define TEXT_BYTES (16 * (PORTERTRUNK_WORDS + 1))

static uint8_t bundle[PORTERTRUNK_BUNDLE_BYTES + 1];
static uint32_t sure[PORTERTRUNK_WORDS];
static uint32_t possible[PORTERTRUNK_WORDS];
static uint8_t text[TEXT_BYTES];

int main(int count, char **words) {
    if (count != 3 && count != 4) {
        fputs("usage: bench_lists members ENTITY ROLE <BUNDLE, or bench_lists roles PERSON <BUNDLE\n", stderr);
        return 1;
    }
    uint8_t first = (uint8_t)atoi(words[2]), second = count == 4 ? (uint8_t)atoi(words[3]) : 0;
    size_t bundle_bytes = fread(bundle, 1, sizeof bundle, stdin);
    uint64_t length = 0;
    long tables = -1, list = -1, start = nanoseconds();
    for (long done = 0; once_more(done, start); done++) {
        long before = nanoseconds();
        timed_tables(bundle, bundle_bytes, sure, PORTERTRUNK_WORDS, possible, PORTERTRUNK_WORDS);
        long between = nanoseconds();
        length = count == 4 ? timed_members(bundle, bundle_bytes, first, second, text, TEXT_BYTES)
                            : timed_roles(bundle, bundle_bytes, first, text, TEXT_BYTES);
        list = shorter(list, nanoseconds() - between);
        tables = shorter(tables, between - before);
    }
    printf("%6u %14.1f %14.1f %6.0f\n", (unsigned)length, (double)tables / 1000.0, (double)list / 1000.0,
           100.0 * (double)list / (double)tables);
    return length == 0;
}
