/* An example for C programmers: asks one question of a bundle, and has the answer's slip checked.
 *
 *     ask <tests/data/bundles/house-all-present
 *
 * It reads a bundle from standard input, asks whether Nina is a signer of the Archive, and prints the verdict in words. A YES
 * comes with a slip, the lines of reasoning that lead to it. Whoever doubts the verdict needs the bundle and the slip only,
 * and the check, which knows nothing of the search.
 *
 * To build it on x86-64, once `rt lib` in crates/capi has written the library:
 *
 *     cc -I include -o ask examples/ask.c crates/capi/out/libcapi.a */
#include "portertrunk.h"
#include <stdio.h>

/* The question: is this person in this role of this entity? The numbers are those of the small house. */
#define PERSON 4 /* Nina */
#define ENTITY 1 /* the Archive */
#define ROLE 6   /* signer */

#define LINE_BYTES 8
#define PREMISES 3

/* The buffer has room for one byte more than the longest bundle, so that longer input has a wrong length and is refused; a
 * buffer without it would cut the input to something else than what was sent. */
static uint8_t bundle[PORTERTRUNK_BUNDLE_BYTES + 1];

/* The memory that the calls are lent. It need not be cleared: a search that is not refused writes all of both tables. */
static uint32_t sure[PORTERTRUNK_WORDS];
static uint32_t possible[PORTERTRUNK_WORDS];
static uint8_t slip[PORTERTRUNK_SLIP_BYTES];

static const char *verdict_in_words(unsigned verdict) {
    switch (verdict) {
    case 1: return "YES, the credentials in hand make the person a member";
    case 2: return "NO, and no credentials from the missing houses could make it so";
    default: return "UNSURE, credentials from the missing houses could make it so";
    }
}

/* Prints one line of a slip: a member, the number of the credential that gives the membership, and its premises, which are
 * the numbers of up to three earlier lines, in two bytes each, low byte first; 0 is none. */
static void print_line(unsigned number, const uint8_t *line) {
    printf("  line %u: member %u, credential %u, premises", number, (unsigned)line[0], (unsigned)line[1]);
    for (int i = 0; i < PREMISES; i++) {
        const uint8_t *at = line + 2 + 2 * i;
        printf(" %u", at[0] | (unsigned)at[1] << 8);
    }
    puts("");
}

/* Has the slip checked as its receiver would, who has the bundle and the slip but has not searched. */
static int check_slip(size_t bundle_bytes, unsigned lines) {
    uint64_t result = portertrunk_check(bundle, bundle_bytes, PERSON, ENTITY, ROLE, slip, (size_t)lines * LINE_BYTES);
    if (portertrunk_number(result) != 0) {
        printf("the slip is refused: number %u, place %u\n", portertrunk_number(result), portertrunk_place(result));
        return 1;
    }
    printf("the slip of %u lines is accepted:\n", portertrunk_lines(result));
    for (unsigned i = 0; i < lines; i++) print_line(i + 1, slip + (size_t)i * LINE_BYTES);
    return 0;
}

int main(void) {
    size_t bundle_bytes = fread(bundle, 1, sizeof bundle, stdin);
    if (ferror(stdin)) {
        fputs("ask: standard input cannot be read\n", stderr);
        return 1;
    }
    uint64_t result = portertrunk_search(bundle, bundle_bytes, PERSON, ENTITY, ROLE, sure, PORTERTRUNK_WORDS, possible,
                                         PORTERTRUNK_WORDS, slip, PORTERTRUNK_SLIP_BYTES);
    /* A refusal comes first: the verdict of a refused call is 0, and no lent word or byte was touched. */
    if (portertrunk_number(result) != 0) {
        printf("refused: number %u, place %u\n", portertrunk_number(result), portertrunk_place(result));
        return 1;
    }
    printf("%s\n", verdict_in_words(portertrunk_verdict(result)));
    printf("rounds: %u\n", portertrunk_rounds(result));
    if (portertrunk_verdict(result) != 1) return 0;
    return check_slip(bundle_bytes, portertrunk_lines(result));
}
