/* The holders of a record by the library under test, many cases in one run: as harness.c, for portertrunk_holders. The second
 * program draws the cases and compares the answers; its file second/holder_exchange.rs has the two formats.
 *
 * A case: kind 8, group, the record's number, 0, 0, then four numbers of four bytes, low byte first: bytes of the bundle, bytes
 * of the sheet, 0, 0; then the bundle and the sheet. An answer: the result. */
#include "portertrunk.h"
#include "cases.h"

int main(void) {
    uint8_t head[21];
    while (fill(head, sizeof head)) {
        if (head[0] != 8) STOP("harness: no such kind of case\n");
        uint32_t bundle_bytes = number(head + 5), sheet_bytes = number(head + 9);
        uint8_t *bundle = take_input(bundle_bytes), *sheet = take_input(sheet_bytes);
        uint64_t result = portertrunk_holders(bundle, bundle_bytes, sheet, sheet_bytes, head[2]);
        put(&result, 8);
        free(bundle);
        free(sheet);
    }
    return 0;
}
