/* Searches and tables with a sheet by the library under test, many cases in one run: as harness.c, for
 * portertrunk_search_with_sheet and portertrunk_tables_with_sheet. The second program draws the cases and compares the answers;
 * its file second/with_sheet_exchange.rs has the two formats.
 *
 * A case: kind (9 search, 10 tables), group, d, a, r, then four numbers of four bytes, low byte first: bytes of the bundle, words
 * of the sure and of the possible table, bytes of the slip buffer; then the bundle, the length of the sheet in four bytes, and the
 * sheet. An answer: the result, the two tables and the slip buffer, which has no byte for tables. Lent memory is filled before
 * each call. */
#include "portertrunk.h"
#include "cases.h"
#include "lent.h"

struct bytes {
    uint8_t *at;
    uint32_t count;
};

static struct bytes take_sheet(void) {
    uint8_t length[4];
    if (!fill(length, sizeof length)) STOP("harness: the cases end in the middle of one\n");
    struct bytes sheet = {.count = number(length)};
    sheet.at = take_input(sheet.count);
    return sheet;
}

int main(void) {
    uint8_t head[21];
    while (fill(head, sizeof head)) {
        if (head[0] != 9 && head[0] != 10) STOP("harness: no such kind of case\n");
        struct bytes bundle = {.count = number(head + 5)};
        bundle.at = take_input(bundle.count);
        struct bytes sheet = take_sheet();
        uint32_t sure_words = number(head + 9), possible_words = number(head + 13), slip_bytes = number(head + 17);
        uint32_t *sure = take_words(sure_words), *possible = take_words(possible_words);
        uint8_t *slip = take_bytes(slip_bytes);
        uint64_t result =
            head[0] == 9 ? portertrunk_search_with_sheet(bundle.at, bundle.count, sheet.at, sheet.count, head[2], head[3], head[4],
                                                         sure, sure_words, possible, possible_words, slip, slip_bytes)
                         : portertrunk_tables_with_sheet(bundle.at, bundle.count, sheet.at, sheet.count, sure, sure_words, possible,
                                                         possible_words);
        put(&result, 8);
        put(sure, (unsigned long)sure_words * 4);
        put(possible, (unsigned long)possible_words * 4);
        put(slip, slip_bytes);
        free(bundle.at);
        free(sheet.at);
        free(sure);
        free(possible);
        free(slip);
    }
    return 0;
}
