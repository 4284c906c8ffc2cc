/* The type of sizes, for a compiler that comes without headers. */
#ifndef TEST_STDDEF_H
#define TEST_STDDEF_H
typedef __SIZE_TYPE__ size_t;
#endif
