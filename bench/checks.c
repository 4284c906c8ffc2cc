/* The benchmark of the block check: how long the check of one block takes.
 *
 *     checks
 *
 * The library has no function for one block, so its check is measured through the reader, which looks at every block. A
 * bundle of seven blocks with wrong checks is refused 2 at 127 after seven checks, its first block alone is refused 2 at 1
 * after one, and a sixth of the difference is one check. Beside the library stand two small readers in plain C, which do no
 * more than gather the wrong checks, and are measured in the same way: one works the check as the library did before, and
 * multiplies each byte by its place; the other adds, as the library does. All take turns, so that they meet the same load,
 * and each time is the shortest of many. */
#include "clock.h"
#include "portertrunk.h"
#include <stdio.h>

#define BLOCK 512
#define BLOCKS 7
#define CHECK_PLACE 510
#define MODULUS 65521
#define TURNS 200
#define CALLS 300

typedef uint64_t check_way(const uint8_t *block);
typedef uint64_t reader(const uint8_t *bundle, int blocks);

static uint8_t all_wrong[BLOCKS * BLOCK];

static inline uint64_t by_the_place(const uint8_t *block) {
    uint64_t total = 1;
    for (uint64_t i = 0; i < CHECK_PLACE; i++) total += (i + 1) * block[i];
    return total % MODULUS;
}

static inline uint64_t by_adding(const uint8_t *block) {
    uint64_t running = 0, totals = 1, i = CHECK_PLACE;
    while (i > 0) {
        i -= 2;
        uint64_t later = block[i + 1], earlier = block[i], between = running + later;
        running = between + earlier;
        totals += between + running;
    }
    return totals % MODULUS;
}

static inline uint64_t stored_check(const uint8_t *block) {
    return block[CHECK_PLACE] + 256 * (uint64_t)block[CHECK_PLACE + 1];
}

/* ---- the three readers: each gives the blocks whose check differs, block k as bit k */

static inline uint64_t wrong_blocks(const uint8_t *bundle, int blocks, check_way *check) {
    uint64_t wrong = 0;
    for (int k = 0; k < blocks; k++) {
        const uint8_t *block = bundle + BLOCK * k;
        if (check(block) != stored_check(block)) wrong |= (uint64_t)1 << k;
    }
    return wrong;
}

static uint64_t read_by_the_place(const uint8_t *bundle, int blocks) { return wrong_blocks(bundle, blocks, by_the_place); }

static uint64_t read_by_adding(const uint8_t *bundle, int blocks) { return wrong_blocks(bundle, blocks, by_adding); }

static uint64_t read_by_library(const uint8_t *bundle, int blocks) {
    uint64_t result = portertrunk_check(bundle, (size_t)blocks * BLOCK, 1, 1, 1, bundle, 0);
    return portertrunk_number(result) == 2 ? portertrunk_place(result) : 0;
}

static struct {
    const char *name;
    reader *read;
    long seven, one; /* the shortest time of CALLS readings, in nanoseconds */
} ways[] = {
    {"before: by the place, plain C", read_by_the_place, 0, 0},
    {"after: by adding, plain C", read_by_adding, 0, 0},
    {"after: by adding, the library", read_by_library, 0, 0},
};

#define WAYS 3
#define LIBRARY 2

/* Bytes that differ from place to place; which they are does not matter to the check. No block has a right one. */
static void fill_bundle(uint8_t *bundle) {
    uint32_t drawn = 1;
    for (int i = 0; i < BLOCKS * BLOCK; i++) {
        drawn = drawn * 1664525 + 1013904223;
        bundle[i] = (uint8_t)(drawn >> 24);
    }
    for (int k = 0; k < BLOCKS; k++) {
        uint8_t *block = bundle + BLOCK * k;
        uint64_t check = by_the_place(block) ^ 1;
        block[CHECK_PLACE] = (uint8_t)check;
        block[CHECK_PLACE + 1] = (uint8_t)(check >> 8);
    }
}

/* Makes the shortest time shorter if this time the readings take less. For all that the compiler knows the bytes change
 * before each reading, so that it leaves none out. */
static void measure(reader *read, int blocks, long *shortest) {
    long before = nanoseconds();
    for (int i = 0; i < CALLS; i++) {
        uint64_t result = read(all_wrong, blocks);
        __asm__ volatile("" : : "r"(result) : "memory");
    }
    long took = nanoseconds() - before;
    if (*shortest == 0 || took < *shortest) *shortest = took;
}

static double one_check(int way) {
    return (double)(ways[way].seven - ways[way].one) / (BLOCKS - 1) / CALLS / 1000.0;
}

int main(void) {
    fill_bundle(all_wrong);
    for (int way = 0; way < WAYS; way++) {
        if (ways[way].read(all_wrong, BLOCKS) != 127 || ways[way].read(all_wrong, 1) != 1) {
            fputs("checks: the readers do not agree\n", stderr);
            return 1;
        }
    }
    for (int turn = 0; turn < TURNS; turn++) {
        for (int way = 0; way < WAYS; way++) {
            measure(ways[way].read, BLOCKS, &ways[way].seven);
            measure(ways[way].read, 1, &ways[way].one);
        }
    }
    printf("%-34s %14s %14s\n", "check of a block", "microseconds", "to the library");
    for (int way = 0; way < WAYS; way++) {
        printf("%-34s %14.3f %14.2f\n", ways[way].name, one_check(way), one_check(way) / one_check(LIBRARY));
    }
    return 0;
}
