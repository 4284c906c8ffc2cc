/* The writer of the library under test, many cases in one run: as harness.c, for portertrunk_write and portertrunk_append. The
 * second program draws the cases and compares the answers; its file second/writer_exchange.rs has the two formats.
 *
 * A case: kind, group, three bytes, then four numbers of four bytes, low byte first, of which the first is the number of bytes
 * of the buffer; then the buffer with all that stands in it before the call, and what else the call is handed:
 *
 *     2  write: E, R; bytes of the marks, of the records; the marks, the records
 *     3  append: bytes of the record, the length in two numbers; the record
 *     4  chain: as a write, the last number says how many records are written; the others are appended one by one
 *     5  slip: d, a, r; bytes of the record, the length, bytes of the slip; the record, the slip, which is checked before and
 *        after the append
 *
 * An answer: the result, of a chain the last one, for a slip those of the check, the append and the check; then the buffer. */
#include "portertrunk.h"
#include "cases.h"

struct buffer {
    uint8_t *at;
    uint32_t bytes;
};

static int refused(uint64_t result) { return portertrunk_number(result) != 0; }

static void write_case(const uint8_t *head, struct buffer bundle) {
    uint32_t marks_bytes = number(head + 9), records_bytes = number(head + 13);
    uint8_t *marks = take_input(marks_bytes), *records = take_input(records_bytes);
    uint64_t result =
        portertrunk_write(head[2], head[3], marks, marks_bytes, records, records_bytes, bundle.at, bundle.bytes);
    put(&result, 8);
    free(marks);
    free(records);
}

static void append_case(const uint8_t *head, struct buffer bundle) {
    uint32_t record_bytes = number(head + 9);
    uint64_t length = number(head + 13) | (uint64_t)number(head + 17) << 32;
    uint8_t *record = take_input(record_bytes);
    uint64_t result = portertrunk_append(bundle.at, bundle.bytes, length, record, record_bytes);
    put(&result, 8);
    free(record);
}

/* Each record is appended from memory of its own, to the length that the call before has given. */
static uint64_t append_all(struct buffer bundle, uint64_t result, const uint8_t *records, uint32_t bytes) {
    for (uint32_t done = 0; done < bytes && !refused(result); done += PORTERTRUNK_RECORD_BYTES) {
        uint8_t *record = take(PORTERTRUNK_RECORD_BYTES);
        for (int i = 0; i < PORTERTRUNK_RECORD_BYTES; i++) record[i] = records[done + i];
        result = portertrunk_append(bundle.at, bundle.bytes, result, record, PORTERTRUNK_RECORD_BYTES);
        free(record);
    }
    return result;
}

static void chain_case(const uint8_t *head, struct buffer bundle) {
    uint32_t marks_bytes = number(head + 9), records_bytes = number(head + 13), first = number(head + 17);
    if (records_bytes % PORTERTRUNK_RECORD_BYTES != 0 || first > records_bytes / PORTERTRUNK_RECORD_BYTES)
        STOP("harness: no chain\n");
    uint8_t *marks = take_input(marks_bytes), *records = take_input(records_bytes);
    uint32_t written = first * PORTERTRUNK_RECORD_BYTES;
    uint64_t result = portertrunk_write(head[2], head[3], marks, marks_bytes, records, written, bundle.at, bundle.bytes);
    result = append_all(bundle, result, records + written, records_bytes - written);
    put(&result, 8);
    free(marks);
    free(records);
}

static void slip_case(const uint8_t *head, struct buffer bundle) {
    uint32_t record_bytes = number(head + 9), length = number(head + 13), slip_bytes = number(head + 17);
    if (length > bundle.bytes) STOP("harness: a length beyond the buffer\n");
    uint8_t *record = take_input(record_bytes), *slip = take_input(slip_bytes);
    uint64_t results[3];
    results[0] = portertrunk_check(bundle.at, length, head[2], head[3], head[4], slip, slip_bytes);
    results[1] = portertrunk_append(bundle.at, bundle.bytes, length, record, record_bytes);
    uint64_t longer = refused(results[1]) ? length : results[1];
    if (longer > bundle.bytes) longer = bundle.bytes;
    results[2] = portertrunk_check(bundle.at, longer, head[2], head[3], head[4], slip, slip_bytes);
    put(results, sizeof results);
    free(record);
    free(slip);
}

int main(void) {
    uint8_t head[21];
    while (fill(head, sizeof head)) {
        struct buffer bundle = {.bytes = number(head + 5)};
        bundle.at = take_input(bundle.bytes);
        switch (head[0]) {
        case 2: write_case(head, bundle); break;
        case 3: append_case(head, bundle); break;
        case 4: chain_case(head, bundle); break;
        case 5: slip_case(head, bundle); break;
        default: STOP("harness: no such kind of case\n");
        }
        put(bundle.at, bundle.bytes);
        free(bundle.at);
    }
    return 0;
}
