/* A controller in small: plans the job on standard input, has the sheet checked, and prints it if the check passes it.
 * It ends with 0 if the sheet was printed, or if the job is refused and that was. */
#include "cartfloor.h"

#include <stdio.h>
#include <stdlib.h>

/* A text that is too long fills the last byte too, and is refused for it. */
static uint8_t job[CARTFLOOR_TEXT_MAX + 1];

int main(void)
{
    size_t job_len = fread(job, 1, sizeof job, stdin);
    size_t store_len = 65536, sheet_len = 65536;
    uint8_t *store = NULL, *sheet = NULL;
    uint64_t r;
    if (ferror(stdin))
        return 2;

    /* It ends: no job needs more than CARTFLOOR_STORE_MOST and CARTFLOOR_SHEET_MOST. */
    for (;;) {
        store = realloc(store, store_len);
        sheet = realloc(sheet, sheet_len);
        if (store == NULL || sheet == NULL)
            return 2;
        r = cartfloor_plan(job, job_len, store, store_len, sheet, sheet_len);
        if (CARTFLOOR_ANSWER(r) == CARTFLOOR_STORE_TOO_SHORT)
            store_len *= 2;
        else if (CARTFLOOR_ANSWER(r) == CARTFLOOR_SHEET_TOO_SHORT)
            sheet_len *= 2;
        else
            break;
    }

    int status = 0;
    if (CARTFLOOR_ANSWER(r) > CARTFLOOR_CANNOT) {
        printf("REFUSED\t%u\t%u\n", CARTFLOOR_ANSWER(r), (unsigned)CARTFLOOR_VALUE(r));
    } else {
        size_t written = (size_t)CARTFLOOR_VALUE(r);
        uint64_t checked = cartfloor_check(job, job_len, store, store_len, sheet, written);
        if (checked != CARTFLOOR_ANSWER(r) || fwrite(sheet, 1, written, stdout) != written)
            status = 1;
    }
    free(store);
    free(sheet);
    return status;
}
