/* Counts checks. One that fails says where it stands and what came. Valid as C11 and as C++11. */
#ifndef CHECK_H
#define CHECK_H

#include <stdbool.h>
#include <stdint.h>

extern unsigned long checks, failures;

void check_at(const char *file, int line, const char *what, uint64_t got, uint64_t expected);

/* Both as whole numbers. */
#define CHECK(got, expected) check_at(__FILE__, __LINE__, #got, (uint64_t)(got), (uint64_t)(expected))

/* A number and a value, those of a call's wb_answer. */
#define CHECK_ANSWER(call, expected_number, expected_value) \
    do { \
        wb_answer answer_ = (call); \
        check_at(__FILE__, __LINE__, "number of " #call, answer_.number, (uint64_t)(expected_number)); \
        check_at(__FILE__, __LINE__, "value of " #call, answer_.value, (uint64_t)(expected_value)); \
    } while (0)

/* The recorded answers of the original, asked through the header (recorded.c). */
void check_recorded_calls(const char *path);
void check_counted_calls(const char *path);
void check_recorded_lists(const char *path);

#endif
