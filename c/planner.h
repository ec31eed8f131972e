/*
 * The passage planner for C99 and C++11, or later.
 *
 * A sheet is a text that describes up to eight quantities by their rates of change; docs/SHEET.md says how to write one. The
 * planner carries them over equal steps, and gives for each step a row: a degree and, for each quantity, a value, a radius, a
 * low and a high, in units. PLANNER_SCALE units make 1.
 *
 *     planner_answer          the answer to a sheet, as text
 *     planner_run             the same as numbers: the rows, and a summary of what came of it
 *     planner_first_clear     the first of so many rows in a row with water enough for certain
 *     planner_convert         sheets of up to 240 steps from a stored sheet of up to 400
 *     planner_refusal_words   what a refusal's number says
 *
 * Install it, which builds it and proves it first, and link a program with it; nothing else is needed but the C library:
 *
 *     scripts/install PREFIX
 *     cc program.c $(pkg-config --cflags --libs planner)
 *
 * Or link with the archive, where it was built:
 *
 *     scripts/library
 *     cc -Ic program.c target/libplanner.a
 *
 * A whole program, which reads a sheet and prints where its first quantity lies in each step:
 *
 *     #include <inttypes.h>
 *     #include <stdio.h>
 *     #include "planner.h"
 *
 *     static uint8_t sheet[PLANNER_SHEET_LENGTH];
 *     static int64_t rows[PLANNER_ROWS_LENGTH];
 *
 *     int main(void)
 *     {
 *         uint64_t summary[PLANNER_SUMMARY_LENGTH];
 *         size_t length = fread(sheet, 1, sizeof sheet, stdin);
 *         planner_run(sheet, length, rows, PLANNER_ROWS_LENGTH, summary);
 *         size_t n = summary[PLANNER_QUANTITIES];
 *         for (size_t j = 0; j < summary[PLANNER_ROWS]; j++)
 *             printf("step %zu: %" PRId64 " to %" PRId64 " units\n", j + 1, rows[PLANNER_LOW_PLACE(n, j, 0)],
 *                    rows[PLANNER_HIGH_PLACE(n, j, 0)]);
 *         if (summary[PLANNER_RESULT] == PLANNER_ACCEPTED)
 *             return 0;
 *         if (summary[PLANNER_AT] > 0)
 *             printf("step %" PRIu64 ": ", summary[PLANNER_AT]);
 *         printf("refused: %s\n", planner_refusal_words((int64_t)summary[PLANNER_RESULT]));
 *         return 1;
 *     }
 *
 * What holds for every function:
 *
 * - It keeps no state, allocates nothing, neither reads nor writes a file, and leaves errno alone. So any number of threads may
 *   call it at the same time, each with buffers of its own. A call needs less than 64 kB of stack.
 * - No pointer may be null, even with the length 0. A buffer has to have the length that is told with it.
 * - No buffer that it writes may overlap another.
 * - Whatever bytes and numbers it is given, it ends, and tells what is wrong with them by the number of a refusal. It fails in
 *   no other way.
 *
 * The library is for x86-64.
 */
#ifndef PLANNER_H
#define PLANNER_H

#include <stddef.h>
#include <stdint.h>

#ifdef __cplusplus
extern "C" {
#endif

/*
 * The version of this header, and of the library that it is installed with. A program that was compiled with one version runs
 * with the library of every later one of the same MAJOR: functions, sizes, places and refusals stay what they are, and there
 * may be more of them. MINOR is the last change request that the planner meets, which may have changed the rows of a sheet;
 * PATCH counts the changes since.
 */
#define PLANNER_VERSION "1.6.7"
#define PLANNER_VERSION_MAJOR 1
#define PLANNER_VERSION_MINOR 6
#define PLANNER_VERSION_PATCH 7

/*
 * The sizes, the most and the scale are constants of 64 bits with a sign, as the numbers in the rows are, so a product with an
 * int does not overflow: 200 m are 200 * PLANNER_SCALE units. They may stand in array bounds and in #if; PRId64 prints them.
 *
 * Sizes that suffice for every sheet: bytes to read a sheet into, one more than a sheet may have, so that a longer one is
 * seen to be too long; places for the rows; bytes for the answer's text, and for what becomes of a stored sheet. The library
 * is proved for these sizes.
 */
#define PLANNER_SHEET_LENGTH INT64_C(4097)
#define PLANNER_ROWS_LENGTH INT64_C(7920)
#define PLANNER_TEXT_LENGTH INT64_C(132985)
#define PLANNER_CONVERTED_LENGTH INT64_C(4096)

/*
 * The most quantities and the most steps that a sheet may have; the most steps that a stored sheet may have (where these are
 * more than PLANNER_MOST_STEPS, planner_convert makes two sheets of it); the largest weight, and the largest base or need, of
 * a search for water enough, without their sign, in units; how many units make 1.
 */
#define PLANNER_MOST_QUANTITIES INT64_C(8)
#define PLANNER_MOST_STEPS INT64_C(240)
#define PLANNER_STORED_STEPS INT64_C(400)
#define PLANNER_MOST_WEIGHT INT64_C(67108864)
#define PLANNER_MOST_NEED INT64_C(536870912)
#define PLANNER_SCALE INT64_C(16777216)

/*
 * The numbers of the refusals; docs/SHEET.md has what was asked and what to do. A sheet is refused by 1 to 8, a search for
 * water enough by 3, 5, 9 and 10.
 */
enum planner_refusal {
    PLANNER_ACCEPTED = 0,
    PLANNER_REFUSED_OVERSIZED = 1,           /* the sheet has more than 4,096 bytes */
    PLANNER_REFUSED_MISSPELT = 2,            /* a line is misspelt, missing or one too many */
    PLANNER_REFUSED_OUT_OF_RANGE = 3,        /* a number of the sheet; of a search, n or count */
    PLANNER_REFUSED_NO_READING = 4,          /* a start reads none */
    PLANNER_REFUSED_TOO_FEW_PLACES = 5,      /* rows_length is less than the rows need */
    PLANNER_REFUSED_TOO_LARGE = 6,           /* before the step, |value| + radius of a quantity */
    PLANNER_REFUSED_STEP_TOO_LONG = 7,       /* the step's ratio is too large */
    PLANNER_REFUSED_INTOLERABLE = 8,         /* after the step, a radius is above tol */
    PLANNER_REFUSED_QUERY_OUT_OF_RANGE = 9,  /* a weight, base, need or run of a search */
    PLANNER_REFUSED_ROW_OUT_OF_RANGE = 10    /* a number in the rows that a search is given */
};

/*
 * What a refusal says, in plain words without a full stop. The number is given as it came: of a sheet, as the summary has it in
 * PLANNER_RESULT or the answer in its line result=; of a search, with the minus with which planner_first_clear gives it, for
 * there 3 and 5 are about other numbers. Any other number is said to be none of the planner's. The words stay where they are
 * and are not to be freed.
 */
static inline const char *planner_refusal_words(int64_t number)
{
    switch (number) {
    case PLANNER_ACCEPTED:
        return "nothing is refused";
    case PLANNER_REFUSED_OVERSIZED:
        return "the sheet is too long: more than 4,096 bytes";
    case PLANNER_REFUSED_MISSPELT:
        return "a line of the sheet is misspelt, missing or one too many";
    case PLANNER_REFUSED_OUT_OF_RANGE:
        return "a number of the sheet is out of its range";
    case PLANNER_REFUSED_NO_READING:
        return "a start has no reading, and no passage is planned from a missing reading";
    case PLANNER_REFUSED_TOO_FEW_PLACES:
        return "the buffer for the rows is too short";
    case PLANNER_REFUSED_TOO_LARGE:
        return "before the step, a quantity with its radius has gone beyond 32 wholes";
    case PLANNER_REFUSED_STEP_TOO_LONG:
        return "the step is too long for how fast the quantities may change";
    case PLANNER_REFUSED_INTOLERABLE:
        return "after the step, a radius would pass the tolerance";
    case -PLANNER_REFUSED_OUT_OF_RANGE:
        return "the number of quantities or the count of rows is out of its range";
    case -PLANNER_REFUSED_TOO_FEW_PLACES:
        return "the buffer is shorter than the rows in it";
    case PLANNER_REFUSED_QUERY_OUT_OF_RANGE:
    case -PLANNER_REFUSED_QUERY_OUT_OF_RANGE:
        return "a weight, the base, the need or the run is out of its range";
    case PLANNER_REFUSED_ROW_OUT_OF_RANGE:
    case -PLANNER_REFUSED_ROW_OUT_OF_RANGE:
        return "these are no rows of the planner's";
    default:
        return "no refusal of the planner's";
    }
}

/*
 * A row of n quantities in the rows buffer: its degree, its n values, its n radii, its n lows and its n highs, in units.
 * The rows stand one after another; row j, from 0, has its degree, and the value, the radius, the low and the high of
 * quantity i, from 0, at these places, each a size_t whatever whole numbers it is worked out from.
 *
 * Value and radius are for the end of the row's step, low and high for all of it: at every rational fraction of the step
 * from 0 to 1, the exact sum at that fraction, of whatever degree no lower than the row's, lies between low and high, from
 * every exact state within the radii with which the step starts. These are the radii of the row before, about its values;
 * of the first row, those of the sheet.
 */
#ifdef __cplusplus
#define PLANNER_AS_SIZE(number) (static_cast<size_t>(number))
#else
#define PLANNER_AS_SIZE(number) ((size_t)(number))
#endif
#define PLANNER_ROW_WIDTH(n) (4 * PLANNER_AS_SIZE(n) + 1)
#define PLANNER_DEGREE_PLACE(n, j) (PLANNER_AS_SIZE(j) * PLANNER_ROW_WIDTH(n))
#define PLANNER_VALUE_PLACE(n, j, i) (PLANNER_DEGREE_PLACE(n, j) + 1 + PLANNER_AS_SIZE(i))
#define PLANNER_RADIUS_PLACE(n, j, i) (PLANNER_VALUE_PLACE(n, j, i) + PLANNER_AS_SIZE(n))
#define PLANNER_LOW_PLACE(n, j, i) (PLANNER_VALUE_PLACE(n, j, i) + 2 * PLANNER_AS_SIZE(n))
#define PLANNER_HIGH_PLACE(n, j, i) (PLANNER_VALUE_PLACE(n, j, i) + 3 * PLANNER_AS_SIZE(n))

/*
 * What planner_answer and planner_run are given:
 *
 *   sheet, sheet_length   the bytes of the sheet; they need not end in a zero, and are only read. What is read into a buffer of
 *                         PLANNER_SHEET_LENGTH bytes may be given as it is, also where there was more to read
 *   rows, rows_length     places for the rows; they need not be set to anything before the call. After it there are steps rows
 *                         of PLANNER_ROW_WIDTH(n) places each, or those before a refused step; every other place is as it
 *                         was. With fewer places than the passage needs the answer is refusal 5, and no place is changed
 */

/*
 * Reads a sheet, runs its passage and prints the answer.
 *
 *   text, text_length     bytes for the answer's text; no zero is put after it
 *
 * Gives the length of the answer's text, which is no longer than PLANNER_TEXT_LENGTH. Where it is more than text_length, text
 * holds its first text_length bytes; the rows are whole all the same. What came of the sheet stands in the text's last two
 * lines, result= and at=; planner_run gives it as numbers.
 */
size_t planner_answer(const uint8_t *sheet, size_t sheet_length,
                      int64_t *rows, size_t rows_length,
                      uint8_t *text, size_t text_length);

/* The places of planner_run's summary, all of which it writes. */
enum planner_summary {
    PLANNER_RESULT,     /* PLANNER_ACCEPTED, which is 0, or the number of the refusal, 1 to 8 */
    PLANNER_AT,         /* the refused step, from 1, with 6, 7 and 8; else 0 */
    PLANNER_QUANTITIES, /* n of the sheet; 0 where it could not be read, with 1 to 4 */
    PLANNER_ROWS,       /* how many rows were written: all, with 6, 7 and 8 those before the refused step, with 1 to 5 none */
    PLANNER_SUMMARY_LENGTH
};

/* Reads a sheet and runs its passage, as planner_answer does, but prints no text: what came of it is in the summary. */
void planner_run(const uint8_t *sheet, size_t sheet_length,
                 int64_t *rows, size_t rows_length,
                 uint64_t summary[PLANNER_SUMMARY_LENGTH]);

/*
 * Converts a stored sheet, which may have up to PLANNER_STORED_STEPS steps, to sheets that planner_answer and planner_run
 * take: at most PLANNER_MOST_STEPS steps each, with the same rows.
 *
 *   sheet, sheet_length   the bytes of the stored sheet
 *   rows, rows_length     places for the rows of a long sheet's first PLANNER_MOST_STEPS steps: these, or those before a
 *                         refused step, are there after the call, and every other place is as it was. A sheet of up to
 *                         PLANNER_MOST_STEPS steps needs no places and changes none, nor does one refused as a sheet
 *   text, text_length     bytes for the conversion; no zero is put after it
 *
 * Gives the length of the conversion, which is no longer than PLANNER_CONVERTED_LENGTH. Where it is more than text_length,
 * text holds its first text_length bytes. The conversion is one of these:
 *
 *   a refusal             the lines result= and at= alone: where the sheet is refused as a sheet (1 to 4, at 0); where a
 *                         long one has too few places (5 at 0), one of its first PLANNER_MOST_STEPS steps is refused (6, 7
 *                         or 8 at that step), or in the last row of these |value| + radius is too large for a step more (6
 *                         at PLANNER_MOST_STEPS + 1)
 *   the sheet unaltered   where it has up to PLANNER_MOST_STEPS steps, whatever its passage does
 *   two sheets            where it has more, with an empty line between them: the first has PLANNER_MOST_STEPS steps, the
 *                         second the others, from the last row's values and radii. Their rows together are those of the
 *                         long passage, and so is what becomes of it: where it would be refused at a later step, the
 *                         second sheet is, by the same number
 */
size_t planner_convert(const uint8_t *sheet, size_t sheet_length,
                       int64_t *rows, size_t rows_length,
                       uint8_t *text, size_t text_length);

/*
 * First water for a ship: looks through rows for the first run of so many rows in a row that are certain to clear a need,
 * each all through its step. The clearance is a base and a weighed sum of the quantities.
 *
 *   n, count              the rows' quantities, 1 to PLANNER_MOST_QUANTITIES, and how many rows are looked through, 0 to
 *                         PLANNER_MOST_STEPS; planner_run's summary has both of the rows that it wrote
 *   rows, rows_length     the rows, at their places above; no place past the count rows is looked at
 *   weights               for each quantity a weight, -PLANNER_MOST_WEIGHT to PLANNER_MOST_WEIGHT; there have to be
 *                         PLANNER_MOST_QUANTITIES places, but those past n are not looked at
 *   base, need            each -PLANNER_MOST_NEED to PLANNER_MOST_NEED
 *   run                   how many rows in a row, 1 to PLANNER_MOST_STEPS
 *
 * Weights, base and need are in units, of which 2^24 (PLANNER_SCALE) make 1: a weight of PLANNER_SCALE takes a quantity as
 * it is. A row is certain where the clearance with each quantity at its low, or at its high where its weight is negative,
 * is the need or more, to the last part of a unit; a weight of 0 counts nothing:
 *
 *     base * 2^24 + the sum of weight * (weight < 0 ? high : low) >= need * 2^24
 *
 * Gives the number, from 1, of the first row that opens a run of `run` certain rows, all of them among the count rows; 0
 * where no row does; or minus the number of a refusal (-PLANNER_REFUSED_OUT_OF_RANGE, ..), the first of these that there is
 * cause for:
 *
 *   3    n or count is out of its range
 *   5    rows_length is less than count * PLANNER_ROW_WIDTH(n)
 *   9    one of the n weights, base, need or run is out of its range
 *   10   in any of the count rows, also after such a run, a value, a low or a high is outside -2^31 to 2^31 or a radius
 *        outside 0 to 2^31, whatever the quantity's weight, and although values and radii do not enter the sum. A low may
 *        lie above its high, and the degrees are not looked at
 *
 * What a pilot may say of it, where planner_run or planner_answer wrote the rows (all that they wrote, or the first count of
 * them): at every rational fraction of the step of every certain row, 0 and 1 included, the exact clearance is at least the
 * need, whatever exact start lies within the sheet's radii, and with exact sums of whatever degrees no lower than the
 * printed ones, at the fraction too. At 1 this is the row's own time: the exact state of every certain row clears the need.
 * A row whose values less radii clear it need not be certain: they say nothing of its step before its end.
 *
 * The arrays are only read, and may overlap.
 */
int64_t planner_first_clear(size_t n, size_t count,
                            const int64_t *rows, size_t rows_length,
                            const int64_t weights[PLANNER_MOST_QUANTITIES],
                            int64_t base, int64_t need, size_t run);

#ifdef __cplusplus
}
#endif

#endif
