/* Text lines of the library under test, many cases in one run: as write_harness.c, for portertrunk_read_lines and
 * portertrunk_write_lines. The second program draws the cases and compares the answers; its file second/text_exchange.rs has
 * the two formats.
 *
 * A case: kind (6 read a text, 7 write records), group, E, R, 0, then four numbers of four bytes, low byte first: bytes of the
 * buffer, bytes of the text or of the records, 0, 0; then the buffer with all that stands in it before the call, and the text or
 * the records. An answer: the result, then the buffer. */
#include "portertrunk.h"
#include "cases.h"

typedef uint64_t lines_call(uint8_t entities, uint8_t names, const uint8_t *handed, size_t handed_bytes, uint8_t *buffer,
                            size_t buffer_bytes);

static lines_call *call_of(uint8_t kind) {
    switch (kind) {
    case 6: return portertrunk_read_lines;
    case 7: return portertrunk_write_lines;
    default: STOP("harness: no such kind of case\n");
    }
    return 0;
}

int main(void) {
    uint8_t head[21];
    while (fill(head, sizeof head)) {
        lines_call *call = call_of(head[0]);
        uint32_t buffer_bytes = number(head + 5), handed_bytes = number(head + 9);
        uint8_t *buffer = take_input(buffer_bytes), *handed = take_input(handed_bytes);
        uint64_t result = call(head[2], head[3], handed, handed_bytes, buffer, buffer_bytes);
        put(&result, 8);
        put(buffer, buffer_bytes);
        free(buffer);
        free(handed);
    }
    return 0;
}
