/* A program of the header's tests, in what C99 and C++ have in common, without a cast of its own: compiled with warnings
 * as errors it shows that the header's macros bring none, wherever a program expands them. Each stands as the length of
 * an array, as a first value, and those with parameters also on numbers that come at run time.
 *
 * It makes the floor of a map, then takes job A, lends just what that needs, and prints the sheet if the check passes it. */
#include "cartfloor.h"

#include <stdio.h>
#include <stdlib.h>
#include <string.h>

#define NUMBERS(EACH) \
    EACH(CARTFLOOR_VERSION_MAJOR) \
    EACH(CARTFLOOR_VERSION_MINOR) \
    EACH(CARTFLOOR_CELLS_MAX) \
    EACH(CARTFLOOR_TRACKS_MAX) \
    EACH(CARTFLOOR_CARTS_MAX) \
    EACH(CARTFLOOR_CALLS_MAX) \
    EACH(CARTFLOOR_DEADLINE_MAX) \
    EACH(CARTFLOOR_TEXT_MAX) \
    EACH(CARTFLOOR_SIDE_MAX) \
    EACH(CARTFLOOR_MAP_MOST) \
    EACH(CARTFLOOR_FLOOR_MOST) \
    EACH(CARTFLOOR_STORE_LEAST(1, 3, 2)) \
    EACH(CARTFLOOR_STORE_MOST) \
    EACH(CARTFLOOR_SHEET_LEAST(1, 2)) \
    EACH(CARTFLOOR_SHEET_MOST) \
    EACH(CARTFLOOR_ANSWER(0x201)) \
    EACH(CARTFLOOR_VALUE(0x201)) \
    EACH(CARTFLOOR_AS(unsigned, 7))

/* One more, since no array has the length 0. */
#define LENGTH(number) sizeof(char[(number) + 1]),
#define FIRST_VALUE(number) (number),

static const size_t lengths[] = {NUMBERS(LENGTH)};
static const uint64_t values[] = {NUMBERS(FIRST_VALUE)};
static const char version[] = CARTFLOOR_VERSION;

static uint8_t job[CARTFLOOR_TEXT_MAX + 1], store[CARTFLOOR_STORE_MOST], sheet[CARTFLOOR_SHEET_MOST];

static const uint8_t map[] = "type octile\nheight 1\nwidth 1\nmap\n.\n";
static uint8_t text[CARTFLOOR_FLOOR_MOST];

/* Job A: its last deadline and its counts. They have signs, so that each needs the macro's cast. */
static volatile int last = 1, tracks = 2;
static volatile short cells = 3;
static volatile long carts = 2;

static void must(int holds, const char *what)
{
    if (!holds) {
        fprintf(stderr, "not so: %s\n", what);
        exit(1);
    }
}

static void expect_each_macro_to_be_one_number(void)
{
    for (size_t i = 0; i < sizeof values / sizeof values[0]; i++)
        must(lengths[i] == values[i] + 1, "a macro is as a length what it is as a first value");
}

static void expect_one_version(void)
{
    char numbers[32];
    snprintf(numbers, sizeof numbers, "%d.%d", CARTFLOOR_VERSION_MAJOR, CARTFLOOR_VERSION_MINOR);
    must(strcmp(version, numbers) == 0, "the version is its two numbers");
}

static void expect_a_floor_of_one_cell(void)
{
    uint64_t r = cartfloor_map(map, sizeof map - 1, text, sizeof text);
    must(CARTFLOOR_ANSWER(r) == 0 && CARTFLOOR_VALUE(r) == 8, "the map has a floor");
    must(memcmp(text, "FLOOR\t1\n", 8) == 0, "of one cell");
}

int main(void)
{
    expect_each_macro_to_be_one_number();
    expect_one_version();
    expect_a_floor_of_one_cell();
    size_t job_len = fread(job, 1, sizeof job, stdin);
    size_t store_len = CARTFLOOR_STORE_LEAST(last, cells, tracks);
    uint64_t r = cartfloor_plan(job, job_len, store, store_len, sheet, CARTFLOOR_SHEET_LEAST(last, carts));
    must(CARTFLOOR_ANSWER(r) == CARTFLOOR_PLAN, "job A has a plan");
    size_t sheet_len = CARTFLOOR_AS(size_t, CARTFLOOR_VALUE(r));
    uint64_t checked = cartfloor_check(job, job_len, store, store_len, sheet, sheet_len);
    must(checked == CARTFLOOR_PLAN, "the check passes it");
    must(fwrite(sheet, 1, sheet_len, stdout) == sheet_len, "it is printed");
    return 0;
}
