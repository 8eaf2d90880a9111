/* cartfloor: plans for cart floors, a check of their sheets, and floors from grid maps. This header is the manual.
 *
 * A job text says a floor, its carts, calls and bays; a sheet answers it: PLAN with a path for each call and bay and a walk for
 * each cart that is left, or CANNOT with choke points that show why there is no plan. A map is a drawing of a floor, of which a
 * call writes the first lines of a job. Planner and check take three buffers, the map call takes two; each gives one 64-bit
 * number back. None allocates, and none keeps anything between calls, so different threads may call them at the same time on
 * buffers of their own. To plan, in C:
 *
 *     static uint8_t job[CARTFLOOR_TEXT_MAX + 1];
 *     size_t job_len = fread(job, 1, sizeof job, stdin);
 *     size_t store_len = 65536, sheet_len = 65536;
 *     uint8_t *store = NULL, *sheet = NULL;
 *     uint64_t r;
 *     for (;;) {
 *         store = realloc(store, store_len);
 *         sheet = realloc(sheet, sheet_len);
 *         if (store == NULL || sheet == NULL)
 *             return 2;
 *         r = cartfloor_plan(job, job_len, store, store_len, sheet, sheet_len);
 *         if (CARTFLOOR_ANSWER(r) == CARTFLOOR_STORE_TOO_SHORT)
 *             store_len *= 2;
 *         else if (CARTFLOOR_ANSWER(r) == CARTFLOOR_SHEET_TOO_SHORT)
 *             sheet_len *= 2;
 *         else
 *             break;
 *     }
 *     if (CARTFLOOR_ANSWER(r) <= CARTFLOOR_CANNOT)
 *         fwrite(sheet, 1, (size_t)CARTFLOOR_VALUE(r), stdout);
 *     else
 *         printf("REFUSED\t%u\t%u\n", CARTFLOOR_ANSWER(r), (unsigned)CARTFLOOR_VALUE(r));
 *
 * A text that may be too long is read into CARTFLOOR_TEXT_MAX + 1 bytes, by fread as here, or by read(2) until it gives 0 or they
 * are full. A longer text fills them, and is refused with 2; what is left of it need not be read.
 *
 * Nobody has to count how much a job needs. 64 KiB of each buffer are a start, and the one that is too short is doubled: a
 * refusal changes no lent byte. The loop ends, with 16 MiB of store and 128 KiB for the sheet at the latest. Whoever wants no
 * loop lends CARTFLOOR_STORE_MOST and CARTFLOOR_SHEET_MOST bytes, enough for every job. But the whole lent store is wiped, so
 * that to lend more than the job needs costs time.
 *
 * Pointers. None may be null, also where its length is 0. The buffers of a call do not overlap. They may stand at any address.
 * Stack. Measured at the limits, planning takes 52 KB, checking 35 KB and the map call 6 KB (harness/tests/stack.rs); all three
 * are held under 256 KiB.
 *
 * A JOB
 *
 * Lines of text. LF (byte 10) ends every line, the last one too. A line is a word and its fields, one tab (byte 9) before each
 * field; tabs are shown here as spaces. The words, in the order of their lines:
 *
 *     FLOOR cells           one, the first line: the number of cells, 1 to CARTFLOOR_CELLS_MAX
 *     TRACK cell cell       up to CARTFLOOR_TRACKS_MAX: joins two cells, both ways
 *     CART cell             up to CARTFLOOR_CARTS_MAX: where it stands at step 0
 *     CALL cell deadline    a lift cell, and a step from 0 to CARTFLOOR_DEADLINE_MAX
 *     BAY cell step         a cell to park on, and a step in the same range, which is its deadline
 *
 * CALL and BAY lines stand in any order, up to CARTFLOOR_CALLS_MAX together, and no more than carts. A number has 1 to 3 decimal
 * digits and no leading zero; 0 is one. In a job an exponent may stand behind it, e or E, an optional + and one digit: its value
 * is then the number times ten to that power, as 250 for 25e1 or 25E+1, and all that is said of a number goes by its value. A
 * cell is a number below the number of cells. Tracks and carts are numbered from 0 in the order of their lines, and so are calls
 * and bays together. No track joins a cell to itself, and no two join the same cells, either way round. No two carts stand on one
 * cell, and a cell has one call or bay at most. A text has at most CARTFLOOR_TEXT_MAX bytes.
 *
 *     FLOOR 5               five cells, 0 to 4
 *     TRACK 0 1
 *     TRACK 1 2
 *     TRACK 1 3
 *     TRACK 3 4
 *     CART 0                cart 0 stands on cell 0 at step 0
 *     CART 4                cart 1 on cell 4
 *     BAY 1 2               bay 0: a cart is to stand on cell 1 at step 2; it parks there; the cell is closed from step 3 on
 *     CALL 2 2              call 1: a cart is to stand on cell 2 at a step up to 2; it is lifted off the floor there
 *
 * A walk starts on a cart's cell at step 0, at each step stands or goes along one track, and stands on no bay's cell after that
 * bay's step: the cell is closed then. A plan gives each call and bay a cart of its own, and that cart a walk which ends on its
 * cell: at a lift at any step up to the deadline, in a bay at its step and no other. The cart is on the floor up to that step,
 * and off it from the next, lifted or parked; to cross a lift cell or a bay on the way does neither. A cart that no call or bay
 * gets is a spare cart, and stays on the floor: the plan gives it a walk to step H, which may end on any cell. H is the largest
 * deadline, 0 if there are no calls and no bays. No two carts on the floor, spare ones too, are on one cell at one step, and no
 * two trade the ends of a track from one step to the next. To follow a cart into the cell that it leaves is allowed, and so is a
 * ring of three or more that turns.
 *
 * ITS SHEET
 *
 * Lines, tabs and numbers are as in a job, but without exponents. A plan is a line PLAN with the number of calls and bays, and
 * one PATH for each: its cart, the call or bay, and the cart's cells from step 0 to the one at which it is lifted or parks: 1 to
 * deadline + 1 of them to a call, deadline + 1 to a bay. PATH lines go by deadline, whenever the cart is lifted, equal deadlines
 * by the number of the lift or bay cell. Behind them comes one SPARE for each spare cart, by its number: the cart, and its cells
 * from step 0 to H, H + 1 of them.
 *
 *     PLAN 2                a plan for a bay and a call
 *     PATH 1 0 4 3 1        cart 1 parks in bay 0: on cell 4 at step 0, on cell 3 at step 1, on cell 1 at step 2
 *     PATH 0 1 0 1 2        cart 0 serves call 1: on the bay's cell at step 1, while it is open
 *
 * With the cells 0, 1 and 2 in a row, CART 0, CART 1, CALL 2 1 and CALL 1 1, where the lower cell is called second:
 *
 *     PLAN 2                a plan for two calls with one deadline
 *     PATH 0 1 0 1          call 1, on cell 1, comes first
 *     PATH 1 0 1 2          call 0, on cell 2, behind it
 *
 * With two cells, TRACK 0 1, CART 0, CART 1 and BAY 0 1, where one cart is spare, and neither can pass the other:
 *
 *     PLAN 1                a plan for one bay
 *     PATH 0 0 0 0          cart 0 parks in bay 0: on cell 0 at step 0 and at step 1
 *     SPARE 1 1 1           cart 1 is spare: it stays on cell 1 up to step 1
 *
 * Where there is no plan, CANNOT has the number of choke points, fewer than calls and bays, and then follows one CHOKE for each:
 * cell and step, or the word CALL and the number of a call that is no bay. Those of cells go by step, then cell, none twice;
 * behind them come those of calls by number. With the cells 0, 1 and 2 in a row, CART 0, CART 1, BAY 1 0 and CALL 2 2, where cart
 * 1 parks on cell 1 at step 0 and cart 0 cannot pass:
 *
 *     CANNOT 1              no plan; one choke point for a bay and a call
 *     CHOKE 1 0             every walk from any cart to the bay or the call stands on cell 1 at step 0
 *
 * With four cells, TRACK 1 0, TRACK 2 0, CART 1, CART 2, CALL 0 2 and CALL 3 2, where no track reaches cell 3, and where each
 * cart may wait before it goes to cell 0, so that no one cell at one step stops them all:
 *
 *     CANNOT 1
 *     CHOKE CALL 0          every walk from any cart to a call or bay ends at call 0
 *
 * A choke point is a cell at a step from 0 to H, where it stops nothing if the cell is closed then; or a whole call, which every
 * walk that ends at that call stands on, and no other. A true choke list has fewer choke points than the job has calls and bays,
 * and every walk from any cart's cell that ends at any call or bay stands on one of them. Each cart that serves a call or bay
 * would need a choke point of its own: so where there is a true choke list, there is no plan. Where there is no plan, there is
 * such a list. A spare cart is never the reason for it: where the calls and bays can be served, the spare carts can stay too.
 *
 * A MAP
 *
 * A drawing of a floor in letters, in the MovingAI format. LF ends every line, the last one too. The lines come in this order and
 * no other, with one space (byte 32) behind the first word of three of them and none elsewhere; numbers are as on a sheet:
 *
 *     type octile           always so
 *     height 2              the number of rows, 1 to CARTFLOOR_SIDE_MAX
 *     width 4               the number of letters in each row, in the same range
 *     map                   then come the rows
 *     .G@.                  cells 0 and 1, none, cell 2
 *     ..TO                  cells 3 and 4, none, none
 *
 * The letters . and G are cells, @, O and T are none, and there are no others. Cells are numbered from 0, row by row from the top
 * left, and there are 1 to CARTFLOOR_CELLS_MAX of them. Two are joined exactly if they are next to each other in a row or a
 * column. The text of the floor has lines as a job has them, again with tabs shown as spaces:
 *
 *     FLOOR 5               the number of cells
 *     TRACK 0 1             cell 0 and the one to its right
 *     TRACK 0 3             cell 0 and the one below it
 *     TRACK 1 4             cell 1 has none to its right, and this one below
 *     TRACK 3 4             cell 2 has none at all
 *
 * TRACK lines go by their first cell. Each cell in turn is joined to the one on its right and then to the one below, with its own
 * number first. With CART, CALL and BAY lines behind it the text is a job. In C:
 *
 *     static uint8_t map[CARTFLOOR_MAP_MOST + 1], text[CARTFLOOR_FLOOR_MOST];
 *     size_t map_len = fread(map, 1, sizeof map, stdin);
 *     uint64_t r = cartfloor_map(map, map_len, text, sizeof text);
 *     if (CARTFLOOR_ANSWER(r) == 0)
 *         fwrite(text, 1, (size_t)CARTFLOOR_VALUE(r), stdout);
 *     else
 *         printf("REFUSED\t%u\t%u\n", CARTFLOOR_ANSWER(r), (unsigned)CARTFLOOR_VALUE(r));
 *
 * No map in this form is longer than CARTFLOOR_MAP_MOST bytes. A longer text fills the last byte too, and is refused with 13 at
 * the line that would be the bad one in all of it; what is left of it need not be read. */
#ifndef CARTFLOOR_H
#define CARTFLOOR_H

#include <stddef.h>
#include <stdint.h>

#ifdef __cplusplus
extern "C" {
#endif

/* The version of this header and its library. The minor number moves where jobs or sheets are read or written otherwise than
 * before, or where calls are added: programs compile as they are. The major number moves where a program has to change. Since
 * 1.2 equal deadlines go by cell: sheets of 1.1 and before are out of order (12) where they have them in another order. Since 1.3
 * there is cartfloor_map. Since 1.4 a lift takes a cart at any step up to the deadline: plans of 1.3 are still plans, but a choke
 * list of 1.3 and before may let a walk through that is lifted early, and is turned back then (12). Since 1.5 the numbers of a
 * job may have exponents: what was a job is the same job, and only texts that got 4 may be answered otherwise. Since 1.6 a job
 * may have more carts than calls and bays, where it got 8 before, and its plans have SPARE lines: sheets of all other jobs are
 * right or wrong as before. */
#define CARTFLOOR_VERSION_MAJOR 1
#define CARTFLOOR_VERSION_MINOR 6
#define CARTFLOOR_VERSION "1.6"

/* C++ compilers can be asked to warn of C's casts. */
#ifdef __cplusplus
#define CARTFLOOR_AS(type, number) (static_cast<type>(number))
#else
#define CARTFLOOR_AS(type, number) ((type)(number))
#endif

/* A call's answer is the lowest byte of its number. The rest is, after PLAN or CANNOT from the planner, the number of bytes
 * written; after PLAN or CANNOT from the check, 0; after 0 from the map call, the number of bytes written; after a refusal, its
 * line, or 0 where it concerns no line. */
#define CARTFLOOR_ANSWER(r) CARTFLOOR_AS(unsigned, (r) & 0xff)
#define CARTFLOOR_VALUE(r) (CARTFLOOR_AS(uint64_t, r) >> 8)

/* The answers, and what to do. PLAN and CANNOT come from the planner, which wrote such a sheet, and from the check, which passed
 * it. From the map call 0 says that the floor's text was written. The first of the refusals that holds is the answer, for planner
 * and check in this order:
 *
 *     2          the text
 *     3 to 7     each line from the first; of a line 3 before 4 and so on, each over the whole line
 *     8          the whole job
 *     9          the store
 *     10         the sheet buffer, from the planner
 *     11, 12     the sheet, from the check
 *
 * and for the map call in this:
 *
 *     13         each line from the first
 *     14         the whole map
 *     10         the buffer for the floor's text
 *
 * The line of 3 to 7 is that of the job text, the line of 11 that of the sheet, the line of 13 that of the map, all counted from
 * 1; it is 0 with all others. What stands behind the last LF is a line without one. A line that is missing is the one after the
 * last, 1 in an empty text. Of lines beyond those that the sheet counts, and beyond the rows of a map, it is the first.
 *
 * A sheet is not in the form where its words, numbers or counts of fields are wrong, where its last LF is missing, where it has
 * unknown carts, calls, bays, cells or steps, where a PATH has no cell, or more than deadline + 1, or to a bay not exactly these,
 * where a SPARE has not H + 1 cells, where a SPARE is missing or there is one too many, where a CHOKE CALL names a bay, where a
 * PLAN has not the number of calls and bays, or a CANNOT not fewer choke points than that. SPARE lines in another order, and a
 * second line of a cart, are in the form, yet wrong (12). A map is not in the form where a line differs from what A MAP says by
 * any byte, a CR or a space at its end included, where a number is out of range, where a row has not as many letters as the width
 * or another letter, and where the rows are not as many as the height. A refusal changes no lent byte. */
enum {
    /* PLAN: the sheet has a plan. To do: run it. */
    CARTFLOOR_PLAN = 0,
    /* CANNOT: there is no plan, and the sheet has the choke points that show it. To do: let calls and bays be later, first those
     * that are no choke point themselves, then other bays, or drop some. */
    CARTFLOOR_CANNOT = 1,
    /* the text is over 16,384 bytes. To do: send less: no job within the limits needs more. */
    CARTFLOOR_TEXT_TOO_LONG = 2,
    /* a line has no LF, a wrong word, a word out of order or a wrong count of fields; or the text is empty. To do: mend that
     * line: one FLOOR, then TRACK, then CART, then CALL and BAY lines, one tab before each field. */
    CARTFLOOR_BAD_LINE = 3,
    /* a field is no number. To do: mend that line: one to three digits, no leading zero, no sign, no space, no CR; and behind them
     * nothing, or e or E, an optional + and one digit. */
    CARTFLOOR_NO_NUMBER = 4,
    /* a number is out of range. To do: mend that line: 1 to 256 cells, cells below their number, deadlines and steps to 255. */
    CARTFLOOR_OUT_OF_RANGE = 5,
    /* more tracks, carts, or calls and bays together than allowed. To do: split the job: at most 512 tracks, 64 carts, and 64
     * calls and bays. */
    CARTFLOOR_TOO_MANY = 6,
    /* a track joins a cell to itself or a pair joined already, or there is a second cart, or a second call or bay, on a cell. To
     * do: strike that line. */
    CARTFLOOR_DOUBLED = 7,
    /* there are fewer carts than calls and bays together. To do: add carts, or drop calls or bays. */
    CARTFLOOR_UNEVEN = 8,
    /* the store is too short. To do: lend twice as much and call again. */
    CARTFLOOR_STORE_TOO_SHORT = 9,
    /* the buffer for the sheet or the floor's text is too short. To do: lend twice as much and call again. */
    CARTFLOOR_SHEET_TOO_SHORT = 10,
    /* the sheet is not in the form. To do: do not run it: see that line's word, numbers and count of fields, or plan the job
     * again (floors plan --again). */
    CARTFLOOR_BAD_SHEET = 11,
    /* the sheet is in the form, yet no plan, no true choke list, or out of order. To do: do not run it: plan the job again
     * (floors plan --again). */
    CARTFLOOR_WRONG_SHEET = 12,
    /* the map is not in the form. To do: mend that line: type octile, height and width from 1 to 64, map, then so many rows of so
     * many letters, each . G @ O or T; no CR. */
    CARTFLOOR_BAD_MAP = 13,
    /* the map has no cell, or more than 256. To do: draw 1 to 256 cells, or split the drawing. */
    CARTFLOOR_NO_FLOOR = 14
};

/* Limits of a job; CARTFLOOR_CALLS_MAX is for calls and bays together, of which there are no more than carts. */
#define CARTFLOOR_CELLS_MAX 256
#define CARTFLOOR_TRACKS_MAX 512
#define CARTFLOOR_CARTS_MAX 64
#define CARTFLOOR_CALLS_MAX 64
#define CARTFLOOR_DEADLINE_MAX 255
#define CARTFLOOR_TEXT_MAX 16384

/* The limit of a map's height and of its width; the length of the longest map; and one of a text buffer that is enough for every
 * map: a FLOOR line of 10 bytes and CARTFLOOR_TRACKS_MAX TRACK lines of 14. */
#define CARTFLOOR_SIDE_MAX 64
#define CARTFLOOR_MAP_MOST 4195
#define CARTFLOOR_FLOOR_MOST 7178

/* The least lengths of the buffers. `last` is the largest deadline of calls and bays, 0 if there are none. More is allowed. */
#define CARTFLOOR_STORE_LEAST(last, cells, tracks) \
    ((CARTFLOOR_AS(size_t, last) + 1) * 32 * (CARTFLOOR_AS(size_t, cells) + 2 * CARTFLOOR_AS(size_t, tracks)) + 4096)
#define CARTFLOOR_SHEET_LEAST(last, carts) (CARTFLOOR_AS(size_t, carts) * (4 * (CARTFLOOR_AS(size_t, last) + 1) + 16) + 64)

/* Enough for every job. */
#define CARTFLOOR_STORE_MOST CARTFLOOR_STORE_LEAST(CARTFLOOR_DEADLINE_MAX, CARTFLOOR_CELLS_MAX, CARTFLOOR_TRACKS_MAX)
#define CARTFLOOR_SHEET_MOST CARTFLOOR_SHEET_LEAST(CARTFLOOR_DEADLINE_MAX, CARTFLOOR_CARTS_MAX)

/* Plans a job.
 *   job, job_len      the job text; it is left alone
 *   store, store_len  work store, of at least CARTFLOOR_STORE_LEAST bytes, with anything in it. After PLAN or CANNOT every byte
 *                     of it is 0, also past the least length; after a refusal it is as lent
 *   sheet, sheet_len  where the sheet goes, of at least CARTFLOOR_SHEET_LEAST bytes. After PLAN or CANNOT the sheet stands at its
 *                     start, and the bytes behind it are as lent; after a refusal all are
 * Answers PLAN with a plan, exactly if there is one; CANNOT with a true choke list, exactly if there is no plan; or 2 to 10. */
uint64_t cartfloor_plan(const uint8_t *job, size_t job_len, uint8_t *store, size_t store_len, uint8_t *sheet, size_t sheet_len);

/* Checks a sheet, from any hand, against its job.
 *   job, job_len      the job text; it is left alone
 *   store, store_len  as for the planner. After PLAN or CANNOT every byte of it is 0; after any refusal it is as lent
 *   sheet, sheet_len  the whole sheet, however long; it is left alone
 * Answers PLAN exactly if the sheet is a plan of the job in the written form, CANNOT exactly if it is a true choke list of it in
 * the written form; or 2 to 9, 11 or 12. */
uint64_t cartfloor_check(const uint8_t *job, size_t job_len, uint8_t *store, size_t store_len, const uint8_t *sheet,
                         size_t sheet_len);

/* Writes the FLOOR and TRACK lines of a map's floor. It takes no work store.
 *   map, map_len      the whole map, however long; it is left alone
 *   text, text_len    where the text goes; CARTFLOOR_FLOOR_MOST bytes are enough for every map. After 0 the text stands at its
 *                     start, and the bytes behind it are as lent; after a refusal all are
 * Answers 0 with the number of bytes written, exactly if the map is in the form, has 1 to CARTFLOOR_CELLS_MAX cells, and its text
 * fits; or 13, 14 or 10. */
uint64_t cartfloor_map(const uint8_t *map, size_t map_len, uint8_t *text, size_t text_len);

#ifdef __cplusplus
}
#endif

#endif
