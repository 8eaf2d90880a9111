/* A library whose planner writes a sheet that its check turns back. The proved one cannot do that; this one shows what
 * `floors` would do. */
#include "cartfloor.h"

#include <string.h>

uint64_t cartfloor_plan(const uint8_t *job, size_t job_len, uint8_t *store, size_t store_len, uint8_t *sheet, size_t sheet_len)
{
    static const char wrong[] = "PLAN\t0\n";
    (void)job, (void)job_len, (void)store, (void)store_len, (void)sheet_len;
    memcpy(sheet, wrong, sizeof wrong - 1);
    return 256 * (sizeof wrong - 1) + CARTFLOOR_PLAN;
}

uint64_t cartfloor_check(const uint8_t *job, size_t job_len, uint8_t *store, size_t store_len, const uint8_t *sheet,
                         size_t sheet_len)
{
    (void)job, (void)job_len, (void)store, (void)store_len, (void)sheet, (void)sheet_len;
    return CARTFLOOR_WRONG_SHEET;
}

/* Nothing in `floors` calls it, but the bindings that it is built with name it. */
uint64_t cartfloor_map(const uint8_t *map, size_t map_len, uint8_t *text, size_t text_len)
{
    (void)map, (void)map_len, (void)text, (void)text_len;
    return CARTFLOOR_NO_FLOOR;
}
