/*
 * epm.h: test, price and certify electricity capacity and dispatch plans.
 *
 * docs/FORMAT.md has the equations, the prices, the refusals and every table
 * of the lists below: order, indices, length, unit and range. It also says how
 * to choose the scale, the money unit and the unit of power, and how to round
 * a solver's figures. The README says what the answers mean to a planner.
 *
 * The code behind these calls is written in Rattle, a language in which each
 * function is proved to meet its contract. `commands/build epm_c` proves it
 * and writes target/staticlib/libepm_c.a, for x86-64-v2 Linux. To link it:
 *
 *     cc -I include program.c target/staticlib/libepm_c.a
 *
 * It asks memcpy and memset of the C library and nothing else. It allocates
 * nothing, opens nothing and keeps nothing between calls.
 *
 *
 * The lists
 *
 * A list is a pointer to its first element and its length in elements.
 *
 * data         Seven counts: zones Z, plants G, fuels F, seasons Q, days of a
 *              season D, hours of a day T, years Y. Then 48 tables: plants,
 *              demand, cables, prices, limits, batteries, new lines.
 * scale        N, 1 to 1000: the plan's entries are whole Nths of their unit.
 *              There is no default here: the 1000 of a text without a SCAL line is
 *              that of the programs alone.
 * plan         One entry for each column: capacity, generation, reserve,
 *              flow, unmet demand, charge, lines built and the others, in
 *              docs/FORMAT.md's order.
 * multipliers  One for each row, a row being an equation at its indices: the
 *              solver's dual of it, in millionths of a money unit for one
 *              unit of the row's value. FORMAT.md has the units and signs.
 * board        A list that operators read. epm_post writes one year's
 *              generation to it, G*Q*D*T numbers from place `start` on, in
 *              Nths of a MW: plant by plant, and for each plant season by
 *              season, day by day, hour by hour.
 * out          The answer's two figures. out_len is 2 or more; only out[0]
 *              and out[1] are written.
 *
 * Rows, columns, entries, years and places are numbered from 0.
 *
 *
 * The answer
 *
 * A call returns EPM_ACCEPTED and writes
 *
 *     out[0]  the cost, in millionths of a money unit times N; at most
 *             2^62 - 1
 *     out[1]  the gap, below 2^63, from epm_certify; 0 from the others
 *
 * or it returns a refusal's number, 1 to 14 or 16, and writes
 *
 *     out[0]  the refusal's place (see enum epm_answer)
 *     out[1]  0
 *
 * The tests run in the order of their numbers, and the first that fails is
 * answered. There are two exceptions: data shorter than 7 is tested before 1,
 * and 16 is tested between 3 and 4.
 * A call returns EPM_OUT_TOO_SHORT, and writes nothing anywhere, where
 * out_len is below 2.
 *
 *
 * What is promised, and by what
 *
 * Proved of the Rattle source, for lists of every length and content and for
 * every scale, year and start:
 *
 *  - A call ends, reads and writes inside its lists only, and answers what
 *    crates/model/specs/Calls.antt defines: accepted exactly where every test
 *    passes, else the first refusal and its place.
 *    The contracts are in crates/epm_c/src/lib.rt.
 *  - epm_post leaves every place of the board as it was where it refuses, and
 *    every place outside the year's part as it was where it accepts.
 *  - Where epm_certify accepts a plan in Nths, then for every M and every
 *    other plan, in Mths, that meets all the equations over the same data:
 *
 *        N * cost of the other plan  >=  M * (cost - gap)
 *
 *    so that at the same scale no plan costs less than cost - gap. This is in
 *    the contract of `epm_certify` in crates/epm_c/src/lib.rt.
 *
 * Tested: the calls of the compiled library give the answers and boards of a
 * second implementation on thousands of inputs (tests/agreement), and those
 * that docs/FORMAT.md works out for its one-plant station (examples/c,
 * examples/rust).
 *
 * Not proved: that the data are right, that the compiler's back end is, and
 * how much stack a call takes (under 32 KiB as it is compiled today).
 *
 *
 * What the caller sees to
 *
 *  - A pointer is aligned for its type and has as many elements behind it as
 *    its length says; board and out may be written. The library cannot test
 *    this, and no proof covers a call that breaks it.
 *  - An empty list may have any pointer, NULL too: nothing is read or written
 *    through it (tested).
 *  - board and out overlap neither each other nor any other list. data, plan
 *    and multipliers are only read and may overlap.
 *  - During a call no other thread writes any of its lists, or reads board or
 *    out. Calls with boards and outs of their own may run at the same time.
 */
#ifndef EPM_H
#define EPM_H

#include <stddef.h>
#include <stdint.h>

#ifdef __cplusplus
extern "C" {
#endif

/* What a call returns. The comment says what is wrong, and what out[0] is. */
enum epm_answer {
    EPM_ACCEPTED = 0,          /* nothing; the cost */
    EPM_SHAPE = 1,             /* a count is out of range; its index, 0 to 6 */
    EPM_DATA_LENGTH = 2,       /* data is shorter than 7; 7. Or it has not the length its counts give; that length */
    EPM_ENTRY = 3,             /* an entry of data is out of its range; its index in data */
    EPM_SCALE = 4,             /* scale is not 1 to 1000; 0 */
    EPM_PLAN_LENGTH = 5,       /* plan has not one entry for each column; the number of columns */
    EPM_ROW_OFF_SCALE = 6,     /* a sum of a row passes 2^62 - 1; the row */
    EPM_BROKEN = 7,            /* the plan does not meet a row; the row. Rows go in order, 6 before 7 in each */
    EPM_COST_OFF_SCALE = 8,    /* the cost passes 2^62 - 1; 0 */
    EPM_MULTIPLIER_COUNT = 9,  /* there is not one multiplier for each row; the number of rows */
    EPM_MULTIPLIER = 10,       /* a multiplier is out of its range; its row. With the right sign: the money unit is too small (docs/FORMAT.md) */
    EPM_COLUMN_OFF_SCALE = 11, /* a sum of a column passes 2^62 - 1; the column */
    EPM_UNDERPRICED = 12,      /* the multipliers ask more of a column than its price; the column. 11 before 12 in each */
    EPM_GAP_OFF_SCALE = 13,    /* a sum of the gap passes 2^62 - 1; 0 */
    EPM_BOARD = 14,            /* there is no such year, or the board has too few places from start on; 0 */
    /* 15, Frame, is for the text input of the program certify. No call returns it. */
    EPM_STORAGE = 16,          /* a battery has VRE set; the lowest such plant. After 3, before 4 */
    EPM_OUT_TOO_SHORT = 255    /* out_len is below 2; nothing is written */
};

/* Tests the plan against every equation and prices it. Returns EPM_ACCEPTED, 1 to 8, EPM_STORAGE, or EPM_OUT_TOO_SHORT. */
uint32_t epm_check(const uint32_t *data, size_t data_len, uint32_t scale,
                   const uint32_t *plan, size_t plan_len,
                   uint64_t *out, size_t out_len);

/*
 * The tests of epm_check, then those of the multipliers; works out the gap.
 * Returns EPM_ACCEPTED, 1 to 13, EPM_STORAGE, or EPM_OUT_TOO_SHORT.
 *
 * The gap may be larger than the cost, so that out[0] - out[1] wraps around:
 * compare first. A gap as large as the cost says nothing about other plans.
 * After 9 to 13 the plan itself has passed all tests of epm_check.
 */
uint32_t epm_certify(const uint32_t *data, size_t data_len, uint32_t scale,
                     const uint32_t *plan, size_t plan_len,
                     const int64_t *multipliers, size_t multipliers_len,
                     uint64_t *out, size_t out_len);

/*
 * The tests of epm_check, then that the year and the board's places exist;
 * writes the year's generation to board[start] and the places after it.
 * Returns EPM_ACCEPTED, 1 to 8, EPM_BOARD, EPM_STORAGE, or EPM_OUT_TOO_SHORT.
 * The board is written only where EPM_ACCEPTED is returned, and only in its
 * G*Q*D*T places from start on.
 */
uint32_t epm_post(const uint32_t *data, size_t data_len, uint32_t scale,
                  const uint32_t *plan, size_t plan_len, size_t year,
                  uint32_t *board, size_t board_len, size_t start,
                  uint64_t *out, size_t out_len);

#ifdef __cplusplus
}
#endif

#endif
