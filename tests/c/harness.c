/* The library under test, many cases in one run. Reads cases from standard input, calls the library on each through its C
 * interface, and writes to standard output what came back: the result, and every word and byte that was lent. The second
 * program draws the cases and compares the answers; its file second/exchange.rs has the two formats.
 *
 * A case: kind (0 search, 1 check, 2 tables), group, d, a, r, then four numbers of four bytes, low byte first: bytes of the bundle, words
 * of the sure and of the possible table, bytes of the slip buffer or of the slip; then the bundle, and for a check the slip.
 * Lent memory is filled before each call. */
#include "portertrunk.h"
#include "cases.h"
#include "lent.h"

static void search_case(const uint8_t *head, const uint8_t *bundle, uint32_t bundle_bytes) {
    uint32_t sure_words = number(head + 9), possible_words = number(head + 13), slip_bytes = number(head + 17);
    uint32_t *sure = take_words(sure_words), *possible = take_words(possible_words);
    uint8_t *slip = take_bytes(slip_bytes);
    uint64_t result = portertrunk_search(bundle, bundle_bytes, head[2], head[3], head[4], sure, sure_words, possible,
                                         possible_words, slip, slip_bytes);
    put(&result, 8);
    put(sure, (unsigned long)sure_words * 4);
    put(possible, (unsigned long)possible_words * 4);
    put(slip, slip_bytes);
    free(sure);
    free(possible);
    free(slip);
}

static void check_case(const uint8_t *head, const uint8_t *bundle, uint32_t bundle_bytes) {
    uint32_t slip_bytes = number(head + 17);
    uint8_t *slip = take_input(slip_bytes);
    uint64_t result = portertrunk_check(bundle, bundle_bytes, head[2], head[3], head[4], slip, slip_bytes);
    put(&result, 8);
    free(slip);
}

static void tables_case(const uint8_t *head, const uint8_t *bundle, uint32_t bundle_bytes) {
    uint32_t sure_words = number(head + 9), possible_words = number(head + 13);
    uint32_t *sure = take_words(sure_words), *possible = take_words(possible_words);
    uint64_t result = portertrunk_tables(bundle, bundle_bytes, sure, sure_words, possible, possible_words);
    put(&result, 8);
    put(sure, (unsigned long)sure_words * 4);
    put(possible, (unsigned long)possible_words * 4);
    free(sure);
    free(possible);
}

int main(void) {
    uint8_t head[21];
    while (fill(head, sizeof head)) {
        uint32_t bundle_bytes = number(head + 5);
        uint8_t *bundle = take_input(bundle_bytes);
        if (head[0] == 0)
            search_case(head, bundle, bundle_bytes);
        else if (head[0] == 1)
            check_case(head, bundle, bundle_bytes);
        else
            tables_case(head, bundle, bundle_bytes);
        free(bundle);
    }
    return 0;
}
