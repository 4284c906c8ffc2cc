/* An example for C programmers: writes the bundle of the small house, and appends a record to it.
 *
 *     write_example
 *
 * It writes the house's first five credentials, appends the sixth, and asks whether Nina is a signer of the Archive before the
 * append and after it: the sixth credential is the one that says who a signer is.
 *
 * To build it on x86-64, once `rt lib` in crates/capi has written the library:
 *
 *     cc -I include -o write_example examples/write.c crates/capi/out/libcapi.a */
#include "portertrunk.h"
#include <stdio.h>

#define ENTITIES 6
#define NAMES 6
#define PRESENT 1

/* A record has twelve bytes: the form, the issuer, the role's name, and what its form needs; the rest is zero. */
typedef uint8_t record[PORTERTRUNK_RECORD_BYTES];

/* Every shelf of the house is present; the marks of the shelves that it does not have are zero. */
static const uint8_t marks[PORTERTRUNK_MARKS] = {PRESENT, PRESENT, PRESENT, PRESENT, PRESENT, PRESENT};

static const record first_five[5] = {
    {2, 1, 2, 2, 3}, /* Archive.college  <- Board.accredited */
    {1, 2, 3, 3},    /* Board.accredited <- Upland */
    {3, 1, 1, 2, 4}, /* Archive.reader   <- Archive.college.student */
    {1, 3, 4, 4},    /* Upland.student   <- Nina */
    {1, 5, 5, 4},    /* Guild.member     <- Nina */
};
static const record sixth = {4, 1, 6, 2, 1, 1, 5, 5}; /* Archive.signer <- Archive.reader & Guild.member */

/* The memory that the calls are lent. The buffer has room for the longest bundle, and need not be cleared. */
static uint8_t bundle[PORTERTRUNK_BUNDLE_BYTES];
static uint32_t sure[PORTERTRUNK_WORDS];
static uint32_t possible[PORTERTRUNK_WORDS];
static uint8_t slip[PORTERTRUNK_SLIP_BYTES];

/* Prints what a write or an append came to; 1 where it is refused. */
static int print_written(const char *what, uint64_t result) {
    if (portertrunk_number(result) != 0) {
        printf("%s is refused: number %u, place %lu\n", what, portertrunk_number(result),
               (unsigned long)portertrunk_wide_place(result));
        return 1;
    }
    printf("%s: a bundle of %lu bytes\n", what, (unsigned long)portertrunk_length(result));
    return 0;
}

static void ask(size_t length) {
    uint64_t result = portertrunk_search(bundle, length, 4, 1, 6, sure, PORTERTRUNK_WORDS, possible, PORTERTRUNK_WORDS, slip,
                                         PORTERTRUNK_SLIP_BYTES);
    printf("is Nina a signer? %s\n", portertrunk_verdict(result) == 1 ? "YES" : "not by these credentials");
}

int main(void) {
    uint64_t result = portertrunk_write(ENTITIES, NAMES, marks, sizeof marks, first_five[0], sizeof first_five, bundle,
                                        sizeof bundle);
    if (print_written("written", result)) return 1;
    ask(portertrunk_length(result));
    result = portertrunk_append(bundle, sizeof bundle, portertrunk_length(result), sixth, sizeof sixth);
    if (print_written("appended", result)) return 1;
    ask(portertrunk_length(result));
    return 0;
}
