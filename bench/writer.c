/* The benchmark of the writer: how long it takes to write 240 records, or to append the 240th.
 *
 *     bench_writer write <BUNDLE
 *     bench_writer append <BUNDLE
 *
 * The bundle in standard input has 240 records; they are written again, or the last is appended to the others. The call is
 * repeated for one second and at least ten times. It prints the length of the bundle and the shortest time of all in
 * microseconds, as the end of a line of the table that bench/run prints. */
#include "clock.h"
#include "portertrunk.h"
#include <stdio.h>

#define BLOCK_BYTES 512
#define BLOCK_RECORDS 40
#define RECORDS 240
#define RECORDS_BYTES (RECORDS * PORTERTRUNK_RECORD_BYTES)
#define BUT_ONE_BYTES (RECORDS_BYTES - PORTERTRUNK_RECORD_BYTES)

static uint8_t given[PORTERTRUNK_BUNDLE_BYTES + 1];
static uint8_t records[RECORDS_BYTES];
static uint8_t buffer[PORTERTRUNK_BUNDLE_BYTES];

/* The records of the bundle, one after the other. */
static void take_records(void) {
    for (int i = 0; i < RECORDS_BYTES; i++) {
        int in_block = BLOCK_RECORDS * PORTERTRUNK_RECORD_BYTES;
        records[i] = given[BLOCK_BYTES * (1 + i / in_block) + i % in_block];
    }
}

static uint64_t write_first(size_t bytes) {
    return portertrunk_write(given[1], given[2], given + 4, PORTERTRUNK_MARKS, records, bytes, buffer, sizeof buffer);
}

static uint64_t append_last(uint64_t length) {
    return portertrunk_append(buffer, sizeof buffer, length, records + BUT_ONE_BYTES, PORTERTRUNK_RECORD_BYTES);
}

static int say(uint64_t result, long best) {
    printf("%6lu bytes %14.1f\n", (unsigned long)portertrunk_length(result), (double)best / 1000.0);
    return portertrunk_number(result) != 0;
}

static int measure_write(void) {
    uint64_t result = 0;
    long best = -1, start = nanoseconds();
    for (long done = 0; once_more(done, start); done++) {
        long before = nanoseconds();
        result = write_first(RECORDS_BYTES);
        best = shorter(best, nanoseconds() - before);
    }
    return say(result, best);
}

/* The bundle of 239 records is written anew before each append, outside the time. */
static int measure_append(void) {
    uint64_t result = 0;
    long best = -1, start = nanoseconds();
    for (long done = 0; once_more(done, start); done++) {
        uint64_t length = write_first(BUT_ONE_BYTES);
        long before = nanoseconds();
        result = append_last(length);
        best = shorter(best, nanoseconds() - before);
    }
    return say(result, best);
}

int main(int count, char **words) {
    if (count != 2 || fread(given, 1, sizeof given, stdin) != PORTERTRUNK_BUNDLE_BYTES) {
        fputs("usage: bench_writer write|append <BUNDLE, a bundle of 240 records\n", stderr);
        return 1;
    }
    take_records();
    return words[1][0] == 'w' ? measure_write() : measure_append();
}
