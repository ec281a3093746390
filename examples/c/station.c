/* The one-plant station of docs/FORMAT.md through the three calls. The exit status is 0 where every answer is the expected one. */
#include <inttypes.h>
#include <stdio.h>

#include "epm.h"

#define LENGTH(list) (sizeof(list) / sizeof((list)[0]))

/* All counts are 1, so each table has one entry. */
static const uint32_t data[] = {
    1, 1, 1, 1, 1, 1, 1,       /* zones, plants, fuels, seasons, days, hours, years */
    1000, 1, 100, 0,           /* R, V, Dur, minimum-load day */
    0, 0, 0, 0, 10, 2, 0,      /* zone, fuel, kind, VRE, GenCap, year, MaxNewCap */
    0, 0, 1000, 1000, 0, 1000, /* OverLoad, ResOffer, RampDn, RampUp, MinCapFac, CapCredit */
    0, 0, 0,                   /* HeatRate, E, ResCost */
    1000, 1000,                /* Availability, Profile */
    0, 0, 50000,               /* Annuity, FixedOM, GenCost */
    8, 1000, 0, 100,           /* Demand, EE, SRes, PRM */
    0, 0,                      /* TL, Loss */
    0, 0, 0, 0, 0,             /* zone cap, system cap, Tax, MaxFuel, BuildLimit */
    1000, 0, 0, 0, 0, 0,       /* VOLL, SurplusPenalty, RESVoLL, SRESVoLL, Err, MaxCapital */
    0, 0, 0,                   /* battery, efficiency, energy capacity */
    0, 0, 0,                   /* line limit, MW per line, line annuity */
};

/* Columns: cap, build, retire, gen, reserve, trans, unmet, surplus, spinshort, firmshort, charge, level, built, total. */
static const uint32_t plan[] = {10, 0, 0, 8, 0, 0, 0, 0, 0, 0, 0, 0, 0, 0};
static const uint32_t overloaded[] = {10, 0, 0, 11, 0, 0, 0, 3000, 0, 0, 0, 0, 0, 0};

/* One for each of the 28 rows. Row 0 is the station's balance: 5 money units for a kW through the slice. */
static const int64_t multipliers[28] = {5000000};

/* Prints an answer; 1 where it is not the expected one. */
static int differs(const char *call, uint32_t answer, const uint64_t *out,
                   uint32_t expected, uint64_t first, uint64_t second)
{
    if (answer == EPM_ACCEPTED)
        printf("%s: accepted, cost %" PRIu64 "\n", call, out[0]);
    else
        printf("%s: refused, number %" PRIu32 ", place %" PRIu64 "\n", call, answer, out[0]);
    if (answer == expected && out[0] == first && out[1] == second)
        return 0;
    fprintf(stderr, "%s: expected number %" PRIu32 ", figures %" PRIu64 " and %" PRIu64 "\n", call, expected, first, second);
    return 1;
}

int main(void)
{
    uint32_t board[] = {1, 1, 1};
    uint64_t out[2];
    uint32_t answer;
    int faults = 0;

    answer = epm_check(data, LENGTH(data), 1, plan, LENGTH(plan), out, LENGTH(out));
    faults += differs("check", answer, out, EPM_ACCEPTED, 40000000000, 0);

    answer = epm_certify(data, LENGTH(data), 1, plan, LENGTH(plan), multipliers, LENGTH(multipliers), out, LENGTH(out));
    faults += differs("certify", answer, out, EPM_ACCEPTED, 40000000000, 0);
    printf("gap: %" PRIu64 "\n", out[1]);

    answer = epm_post(data, LENGTH(data), 1, plan, LENGTH(plan), 0, board, LENGTH(board), 1, out, LENGTH(out));
    faults += differs("post", answer, out, EPM_ACCEPTED, 40000000000, 0);
    printf("board: %" PRIu32 " %" PRIu32 " %" PRIu32 "\n", board[0], board[1], board[2]);
    faults += board[0] != 1 || board[1] != 8 || board[2] != 1;

    /* Row 4 is equation (22): 11 MW from a plant of 10 MW. */
    answer = epm_check(data, LENGTH(data), 1, overloaded, LENGTH(overloaded), out, LENGTH(out));
    faults += differs("check of 11 MW", answer, out, EPM_BROKEN, 4, 0);

    return faults != 0;
}
