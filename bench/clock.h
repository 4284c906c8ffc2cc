/* What the programs of the benchmark share: the time, and how long a call is repeated. There is no C library's header for the
 * clock here, as they are compiled without any. */
#ifndef BENCH_CLOCK_H
#define BENCH_CLOCK_H

struct timespec {
    long tv_sec;
    long tv_nsec;
};
extern int clock_gettime(int clock, struct timespec *now);

#define MONOTONIC_CLOCK 1
#define LEAST_CALLS 10
#define NANOSECONDS_IN_ALL 1000000000L

static inline long nanoseconds(void) {
    struct timespec now;
    clock_gettime(MONOTONIC_CLOCK, &now);
    return now.tv_sec * 1000000000L + now.tv_nsec;
}

/* Whether a call that was made so often since that time is to be made once more: for one second, and at least ten times. */
static inline int once_more(long made, long since) { return made < LEAST_CALLS || nanoseconds() - since < NANOSECONDS_IN_ALL; }

/* The shorter of two times, where the first may be none yet. */
static inline long shorter(long best, long took) { return best < 0 || took < best ? took : best; }

#endif
