/*
 * What a program may do with the constants of c/planner.h. tests/header compiles it by several standards of C and C++, with
 * every warning an error, and runs it: it prints the line of each thing that is not as it should be, and ends with 1.
 */
#include <limits.h>
#include <stdio.h>
#include "planner.h"
#include "planner.h" /* Once more, as by way of another header. */

#if PLANNER_SCALE != 16777216 || PLANNER_ROWS_LENGTH < PLANNER_MOST_STEPS || PLANNER_VERSION_MAJOR < 1
#error "the constants cannot be compared before the program is compiled"
#endif

/* Array bounds, outside of a function and in one. */
static uint8_t sheet[PLANNER_SHEET_LENGTH];
static int64_t rows[PLANNER_ROWS_LENGTH];
static uint8_t text[PLANNER_TEXT_LENGTH];
static uint8_t converted[PLANNER_CONVERTED_LENGTH];
static int64_t steps[PLANNER_STORED_STEPS][PLANNER_MOST_QUANTITIES];

static int wrong;

static void check(int good, int line)
{
    if (!good) {
        printf("tests/header.c, line %d\n", line);
        wrong = 1;
    }
}

#define CHECK(good) check(good, __LINE__)

static void check_products(void)
{
    int metres = 200, programs = 20000;
    int64_t units = metres * PLANNER_SCALE;
    CHECK(units == INT64_C(3355443200) && 200 * PLANNER_SCALE == units && units / PLANNER_SCALE == metres);
    CHECK(-metres * PLANNER_SCALE == -units);
    CHECK(programs * PLANNER_TEXT_LENGTH == INT64_C(2659700000));
    CHECK(INT_MAX * PLANNER_SHEET_LENGTH > INT_MAX && INT_MAX * PLANNER_MOST_QUANTITIES > INT_MAX);
    CHECK(sizeof PLANNER_SHEET_LENGTH == 8 && sizeof PLANNER_ROWS_LENGTH == 8 && sizeof PLANNER_TEXT_LENGTH == 8);
    CHECK(sizeof PLANNER_CONVERTED_LENGTH == 8 && sizeof PLANNER_MOST_QUANTITIES == 8 && sizeof PLANNER_MOST_STEPS == 8);
    CHECK(sizeof PLANNER_STORED_STEPS == 8 && sizeof PLANNER_SCALE == 8);
    CHECK(sizeof PLANNER_MOST_WEIGHT == 8 && sizeof PLANNER_MOST_NEED == 8 && -PLANNER_MOST_NEED < 0);
}

/* The constants beside whole numbers of either kind, without a warning. */
static void check_comparisons(void)
{
    int n = 8;
    unsigned int m = 8;
    size_t length = sizeof sheet;
    CHECK(n <= PLANNER_MOST_QUANTITIES && m <= PLANNER_MOST_QUANTITIES && length <= PLANNER_SHEET_LENGTH);
    CHECK(sizeof rows / sizeof rows[0] == PLANNER_ROWS_LENGTH && sizeof text == PLANNER_TEXT_LENGTH);
    CHECK(sizeof converted == PLANNER_CONVERTED_LENGTH && sizeof steps / sizeof steps[0] == PLANNER_STORED_STEPS);
}

/* The last row's places by small, signed and unsigned numbers: all of the buffer, and not one place more. */
static void check_places(void)
{
    int64_t row[PLANNER_ROW_WIDTH(8)];
    int n = 8, j = 239, i = 7;
    unsigned char small_n = 8, small_j = 239, small_i = 7;
    size_t size_n = 8, size_j = 239, size_i = 7;
    CHECK(sizeof row / sizeof row[0] == 33);
    CHECK(PLANNER_HIGH_PLACE(n, j, i) == PLANNER_ROWS_LENGTH - 1);
    CHECK(PLANNER_HIGH_PLACE(small_n, small_j, small_i) == PLANNER_ROWS_LENGTH - 1);
    CHECK(PLANNER_HIGH_PLACE(size_n, j, i) == PLANNER_ROWS_LENGTH - 1);
    CHECK(PLANNER_HIGH_PLACE(n, size_j, size_i) == PLANNER_ROWS_LENGTH - 1);
    CHECK(PLANNER_DEGREE_PLACE(n, j + 1) == PLANNER_ROWS_LENGTH);
    CHECK(PLANNER_ROWS_LENGTH / PLANNER_DEGREE_PLACE(n, 1) == 240 && 2 * PLANNER_VALUE_PLACE(n, 0, i) == 16);
    CHECK(2 * PLANNER_RADIUS_PLACE(n, 0, 0) + PLANNER_LOW_PLACE(n, 0, 0) * 2 + PLANNER_HIGH_PLACE(n, 0, 0) * 2 == 102);
    CHECK(PLANNER_VALUE_PLACE(n, j, i - 7) == PLANNER_DEGREE_PLACE(n, j) + 1);
    CHECK(PLANNER_VALUE_PLACE(1, INT_MAX, INT_MAX) == (size_t)6 * INT_MAX + 1);
    CHECK(sizeof PLANNER_ROW_WIDTH(n) == sizeof(size_t) && sizeof PLANNER_LOW_PLACE(n, j, i) == sizeof(size_t));
    rows[PLANNER_RADIUS_PLACE(n, j, i)] = 1;
    CHECK(rows[7920 - 17] == 1);
}

/* A refusal's number as the summary has it, and as a search gives it. */
static void check_refusals(void)
{
    uint64_t result = 9;
    int64_t found = -9;
    CHECK(result == PLANNER_REFUSED_QUERY_OUT_OF_RANGE && found == -PLANNER_REFUSED_QUERY_OUT_OF_RANGE);
    switch (-found) {
    case PLANNER_REFUSED_QUERY_OUT_OF_RANGE:
        break;
    default:
        CHECK(0);
    }
}

int main(void)
{
    check_products();
    check_comparisons();
    check_places();
    check_refusals();
    return wrong;
}
