/*
 * A whole run of one program: light the lamp, wait ten seconds, core while the frame stays level,
 * release. A board would read its clock and its sensors where this example makes both up.
 */
#include "gurvoke.h"

#include <stdio.h>

enum { LAMP, CORER, FRAME, RELEASE, VARIABLES };

/* The corer is at 1 while it works and at 2 when the core is taken; the frame is level at 0. */
static const uint8_t program[] = {
    7, VARIABLES, 1, /* seven parts, four variables, one clock */
    /* the parts' kinds, */
    GURVOKE_SEQ, GURVOKE_GOAL, GURVOKE_START, GURVOKE_WAIT, GURVOKE_MAINTAIN, GURVOKE_GOAL,
    GURVOKE_GOAL,
    /* then their operands: */
    5, 0, 0, 0, /* 0  SEQ of five */
    0, LAMP, 1, 0, /* 1    GOAL lamp = 1 */
    0, 0, 0, 0, /* 2    START clock 0 */
    GURVOKE_AT_LEAST, 0, 10, 0, /* 3    WAIT until clock 0 reads at least 10 */
    GURVOKE_EQUALS, FRAME, 0, 0, /* 4    MAINTAIN frame = 0 */
    0, CORER, 2, 0, /* 5      GOAL corer = 2 */
    0, RELEASE, 1, 0, /* 6    GOAL release = 1 */
};

/* What stands in for the lander: lamp and release obey at once, the corer takes its time, and from
 * 25 seconds on the frame is tilted. */
static void act(uint32_t time, const uint8_t *goals, uint8_t *estimate)
{
    if (goals[LAMP] <= GURVOKE_MAX_VALUE)
        estimate[LAMP] = goals[LAMP];
    if (goals[CORER] <= GURVOKE_MAX_VALUE && estimate[CORER] == 0)
        estimate[CORER] = 1;
    if (goals[RELEASE] <= GURVOKE_MAX_VALUE)
        estimate[RELEASE] = goals[RELEASE];
    estimate[FRAME] = time >= 25;
}

static int refused(const char *call, uint32_t number)
{
    printf("%s refused: %lu\n", call, (unsigned long)number);
    return 1;
}

static void show(uint32_t time, const uint8_t *goals, uint32_t offered, uint32_t settled)
{
    printf("%3lu s  goals", (unsigned long)time);
    for (size_t v = 0; v < VARIABLES; v++)
        printf(" %02X", goals[v]);
    if (!GURVOKE_NAMES_NONE(offered))
        printf("  variable %lu is contested", (unsigned long)GURVOKE_NAMED(offered));
    printf("  %s\n", settled == GURVOKE_FINISHED ? "finished" : "running");
}

int main(void)
{
    static uint8_t table[GURVOKE_MAX_TABLE];
    static uint8_t record[GURVOKE_RECORD];
    uint8_t estimate[VARIABLES] = {0};
    uint8_t goals[VARIABLES];

    uint32_t read = gurvoke_compile(program, sizeof program, table, sizeof table);
    if (GURVOKE_IS_REFUSAL(read))
        return refused("reading", read);
    size_t table_len = GURVOKE_TABLE_LENGTH(table[0]);

    uint32_t begun = gurvoke_begin(table, table_len, estimate, sizeof estimate, record, sizeof record);
    if (GURVOKE_IS_REFUSAL(begun))
        return refused("beginning", begun);

    for (uint32_t time = 0;; time += 5) {
        uint32_t offered =
            gurvoke_offer(table, table_len, record, sizeof record, time, goals, sizeof goals);
        if (GURVOKE_IS_REFUSAL(offered))
            return refused("offer", offered);

        act(time, goals, estimate);

        uint32_t settled = gurvoke_settle(table, table_len, record, sizeof record, estimate,
                                          sizeof estimate);
        if (GURVOKE_IS_REFUSAL(settled))
            return refused("settling", settled);

        show(time, goals, offered, settled);
        if (settled == GURVOKE_FINISHED)
            return 0;
    }
}
