/* What the harnesses share: reading cases from standard input, writing answers to standard output, and memory of exact size.
 * There is no C library's header here, as the harnesses are compiled without any. */
#ifndef TEST_CASES_H
#define TEST_CASES_H

#include <stdint.h>

extern long read(int file, void *buffer, unsigned long bytes);
extern long write(int file, const void *buffer, unsigned long bytes);
extern void *malloc(unsigned long bytes);
extern void free(void *block);
extern void exit(int status) __attribute__((noreturn));

#define MOST_BYTES (1u << 20)

static inline void stop(const char *words, unsigned long length) {
    write(2, words, length);
    exit(1);
}

#define STOP(words) stop(words, sizeof(words) - 1)

/* Reads so many bytes; 0 where the input ended before the first, 1 otherwise. */
static inline int fill(void *buffer, unsigned long bytes) {
    unsigned long got = 0;
    while (got < bytes) {
        long more = read(0, (char *)buffer + got, bytes - got);
        if (more < 0) STOP("harness: cannot read\n");
        if (more == 0) {
            if (got == 0) return 0;
            STOP("harness: the cases end in the middle of one\n");
        }
        got += (unsigned long)more;
    }
    return 1;
}

static inline void put(const void *buffer, unsigned long bytes) {
    unsigned long done = 0;
    while (done < bytes) {
        long more = write(1, (const char *)buffer + done, bytes - done);
        if (more <= 0) STOP("harness: cannot write\n");
        done += (unsigned long)more;
    }
}

/* A number of four bytes, low byte first. */
static inline uint32_t number(const uint8_t *at) {
    return (uint32_t)at[0] | (uint32_t)at[1] << 8 | (uint32_t)at[2] << 16 | (uint32_t)at[3] << 24;
}

/* Memory of exactly so many bytes, so that the first byte past it is nobody's. */
static inline void *take(unsigned long bytes) {
    if (bytes > MOST_BYTES) STOP("harness: a case asks for more memory than any case may\n");
    void *block = malloc(bytes == 0 ? 1 : bytes);
    if (!block) STOP("harness: no memory\n");
    return block;
}

/* Such memory with the next bytes of the input in it. */
static inline uint8_t *take_input(uint32_t bytes) {
    uint8_t *block = take(bytes);
    if (bytes > 0 && !fill(block, bytes)) STOP("harness: the cases end in the middle of one\n");
    return block;
}

#endif
