/* A program of the header's tests: each row of a test is a statement, a call of one of the functions below, which prints
 * a line. The test has the line that the README asks for. ROWS is the file with the statements.
 *
 * PLAN_ORDER, CHECK_ORDER and MAP_ORDER are the names of the parameters in the order of the header's prototypes. So a header
 * with two of them exchanged makes the call with exchanged arguments, as its readers would. Each buffer has room for the
 * longest of the lengths: such a call answers wrongly, yet reads and writes nothing that is not ours. */
#include "cartfloor.h"

#include <stdarg.h>
#include <stdio.h>
#include <string.h>

#define ROOM ((size_t)1 << 24)
#define NOISE 0xa5

_Static_assert(_Generic(cartfloor_plan, default: 0,
    uint64_t (*)(const uint8_t *, size_t, uint8_t *, size_t, uint8_t *, size_t): 1), "the types of cartfloor_plan");
_Static_assert(_Generic(cartfloor_check, default: 0,
    uint64_t (*)(const uint8_t *, size_t, uint8_t *, size_t, const uint8_t *, size_t): 1), "the types of cartfloor_check");
_Static_assert(_Generic(cartfloor_map, default: 0,
    uint64_t (*)(const uint8_t *, size_t, uint8_t *, size_t): 1), "the types of cartfloor_map");

static uint8_t job[ROOM], store[ROOM], sheet[ROOM], map[ROOM], text[ROOM];
static size_t job_len, map_len;

static uint64_t plan(size_t store_len, size_t sheet_len)
{
    return cartfloor_plan(PLAN_ORDER);
}

static uint64_t check(size_t store_len, size_t sheet_len)
{
    return cartfloor_check(CHECK_ORDER);
}

static uint64_t lay(size_t text_len)
{
    return cartfloor_map(MAP_ORDER);
}

static const char *name_of(unsigned answer)
{
#define NAMED(name) case CARTFLOOR_##name: return #name
    switch (answer) {
    NAMED(PLAN);
    NAMED(CANNOT);
    NAMED(TEXT_TOO_LONG);
    NAMED(BAD_LINE);
    NAMED(NO_NUMBER);
    NAMED(OUT_OF_RANGE);
    NAMED(TOO_MANY);
    NAMED(DOUBLED);
    NAMED(UNEVEN);
    NAMED(STORE_TOO_SHORT);
    NAMED(SHEET_TOO_SHORT);
    NAMED(BAD_SHEET);
    NAMED(WRONG_SHEET);
    NAMED(BAD_MAP);
    NAMED(NO_FLOOR);
    default: return "NO NAME";
    }
}

static void tell(uint64_t r)
{
    printf("%s %llu\n", name_of(CARTFLOOR_ANSWER(r)), (unsigned long long)CARTFLOOR_VALUE(r));
}

/* Plans. A sheet goes to the check, as long as the answer says. */
static void tell_planned(size_t store_len, size_t sheet_len)
{
    uint64_t r = plan(store_len, sheet_len);
    if (CARTFLOOR_ANSWER(r) <= CARTFLOOR_CANNOT) {
        printf("%s, checked ", name_of(CARTFLOOR_ANSWER(r)));
        r = check(store_len, (size_t)CARTFLOOR_VALUE(r));
    }
    tell(r);
}

static void begin_job(void)
{
    memset(job, 0, ROOM);
    job_len = 0;
}

static void add(const char *form, ...)
{
    va_list numbers;
    va_start(numbers, form);
    job_len += (size_t)vsnprintf((char *)job + job_len, ROOM - job_len, form, numbers);
    va_end(numbers);
}

/* Tracks from each cell to the next, then to the next but one; carts and calls on the first cells, so that every cart
 * can stand where it is. */
static void make_job(size_t cells, size_t tracks, size_t carts, size_t calls, size_t last)
{
    begin_job();
    add("FLOOR\t%zu\n", cells);
    for (size_t i = 0; i < tracks; i++)
        add("TRACK\t%zu\t%zu\n", i % cells, (i % cells + 1 + i / cells) % cells);
    for (size_t i = 0; i < carts; i++)
        add("CART\t%zu\n", i);
    for (size_t i = 0; i < calls; i++)
        add("CALL\t%zu\t%zu\n", i, last);
}

/* The functions that rows call. */

void number(unsigned long long n)
{
    printf("%llu\n", n);
}

void string(const char *line)
{
    printf("%s\n", line);
}

void planned_job(size_t cells, size_t tracks, size_t carts, size_t calls, size_t last)
{
    make_job(cells, tracks, carts, calls, last);
    tell_planned(CARTFLOOR_STORE_MOST, CARTFLOOR_SHEET_MOST);
}

/* A right job of three lines, and behind it a bad one up to the length. */
void planned_length(size_t length)
{
    begin_job();
    add("FLOOR\t1\nCART\t0\nCALL\t0\t0\n");
    memset(job + job_len, 'x', length - job_len);
    job[length - 1] = '\n';
    job_len = length;
    tell_planned(CARTFLOOR_STORE_MOST, CARTFLOOR_SHEET_MOST);
}

/* In the least lengths, less so many bytes. */
void planned_in_least(size_t last, size_t cells, size_t tracks, size_t carts, size_t less_store, size_t less_sheet)
{
    make_job(cells, tracks, carts, carts, last);
    tell_planned(CARTFLOOR_STORE_LEAST(last, cells, tracks) - less_store, CARTFLOOR_SHEET_LEAST(last, carts) - less_sheet);
}

void checked_in_least(size_t last, size_t cells, size_t tracks, size_t carts, size_t less_store)
{
    make_job(cells, tracks, carts, carts, last);
    uint64_t r = plan(CARTFLOOR_STORE_MOST, CARTFLOOR_SHEET_MOST);
    tell(check(CARTFLOOR_STORE_LEAST(last, cells, tracks) - less_store, (size_t)CARTFLOOR_VALUE(r)));
}

/* The sheet's length and its bytes, and how much of the store is wiped. */
void planned(const char *lines, size_t store_len, size_t sheet_len, const char *expected)
{
    begin_job();
    add("%s", lines);
    memset(store, NOISE, ROOM);
    memset(sheet, NOISE, ROOM);
    uint64_t r = plan(store_len, sheet_len);
    size_t wiped = 0;
    while (wiped < ROOM && store[wiped] == 0)
        wiped++;
    size_t length = strlen(expected);
    int written = memcmp(sheet, expected, length) == 0 && sheet[length] == NOISE;
    printf("%s, %zu wiped, ", written ? "the sheet" : "ANOTHER SHEET", wiped);
    tell(r);
}

void checked(const char *lines, size_t store_len, const char *paths)
{
    begin_job();
    add("%s", lines);
    memset(store, NOISE, ROOM);
    memset(sheet, NOISE, ROOM);
    memcpy(sheet, paths, strlen(paths));
    tell(check(store_len, strlen(paths)));
}

/* From the map call 0 is no PLAN. */
static void tell_laid(uint64_t r)
{
    if (CARTFLOOR_ANSWER(r) == 0)
        printf("written %llu\n", (unsigned long long)CARTFLOOR_VALUE(r));
    else
        tell(r);
}

/* The text's length and its bytes, and that the rest of the buffer and the map are as lent. */
void laid(const char *lines, size_t text_len, const char *expected)
{
    map_len = strlen(lines);
    memcpy(map, lines, map_len);
    memset(text, NOISE, ROOM);
    uint64_t r = lay(text_len);
    size_t length = strlen(expected), end = length;
    while (end < ROOM && text[end] == NOISE)
        end++;
    int written = memcmp(text, expected, length) == 0 && end == ROOM;
    printf("%s%s, ", written ? "the text" : "ANOTHER TEXT", memcmp(map, lines, map_len) == 0 ? "" : ", ANOTHER MAP");
    tell_laid(r);
}

/* A map with so many cells, its first letters, and then none; so many bytes behind its last row. */
void laid_map(size_t height, size_t width, size_t cells, size_t behind, size_t text_len)
{
    map_len = (size_t)snprintf((char *)map, ROOM, "type octile\nheight %zu\nwidth %zu\nmap\n", height, width);
    for (size_t i = 0; i < height * width; i++) {
        map[map_len++] = i < cells ? '.' : '@';
        if ((i + 1) % width == 0)
            map[map_len++] = '\n';
    }
    memset(map + map_len, '@', behind);
    map_len += behind;
    printf("of %zu bytes: ", map_len);
    tell_laid(lay(text_len));
}

int main(void)
{
#include ROWS
    return 0;
}
