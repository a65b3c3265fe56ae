/*
 * A board's main loop. The program stands in read-only memory, table and record in static memory.
 * A cycle reads the clock, makes an offer, lights the deck panel, commands the actuators, reads the
 * sensors and settles.
 *
 * Every refusal has its text, and the board does one of three things about it: it goes on, since a
 * refused call has changed nothing; it reads the program again, where the table is damaged; or it
 * goes into its safe state. No memory is allocated, and no function is recursive.
 *
 * The drivers at the end stand in for a clock, sensors, actuators, a panel and a sea. Their script
 * makes two dives. The output is examples/board.out: it was worked out from the papers, cycle by
 * cycle, as the comments at the script say.
 */
#include "gurvoke.h"

#include <stdbool.h>
#include <stdio.h>
#include <string.h>

enum { LAMP, PUMP, CORER, FRAME, RELEASE, VARIABLES };

/* The lamp is off at 0, dim at 1 and bright at 2. The pump is off at 0 and fastest at 3. The corer
 * is at 1 while it works and at 2 when the core is taken. The frame is level at 0. The release lets
 * go of the ballast at 1. */
static const uint8_t program[] = {
    12, VARIABLES, 1, /* twelve parts, five variables, one clock */
    /* the parts' kinds, */
    GURVOKE_SEQ, GURVOKE_PAR, GURVOKE_GOAL, GURVOKE_GOAL, GURVOKE_GOAL, GURVOKE_GOAL,
    GURVOKE_START, GURVOKE_MAINTAIN, GURVOKE_SEQ, GURVOKE_WAIT, GURVOKE_GOAL, GURVOKE_GOAL,
    /* then their operands: */
    4, 0, 0, 0, /* 0  SEQ of four */
    4, 0, 0, 0, /* 1    PAR of four */
    0, PUMP, 2, 0, /* 2      GOAL pump = 2, for the camera, */
    0, LAMP, 2, 0, /* 3      GOAL lamp = 2, too */
    0, PUMP, 3, 0, /* 4      GOAL pump = 3, for the water sampler */
    0, LAMP, 1, 0, /* 5      GOAL lamp = 1, for the light meter */
    0, 0, 0, 0, /* 6    START clock 0 */
    GURVOKE_EQUALS, FRAME, 0, 0, /* 7    MAINTAIN frame = 0 */
    2, 0, 0, 0, /* 8      SEQ of two */
    GURVOKE_AT_LEAST, 0, 20, 0, /* 9        WAIT until clock 0 reads at least 20 */
    0, CORER, 2, 0, /* 10       GOAL corer = 2 */
    0, RELEASE, 1, 0, /* 11   GOAL release = 1 */
};

/* What the board commands where goals contend for a variable, at rest, and in its safe state, which
 * brings the lander up. The frame has no actuator. */
static const uint8_t when_contested[VARIABLES] = {1, 2, 0, 0, 0};
static const uint8_t at_rest[VARIABLES] = {0, 0, 0, 0, 0};
static const uint8_t when_safe[VARIABLES] = {0, 0, 0, 0, 1};

static const char *const names[VARIABLES] = {"lamp", "pump", "corer", "frame", "release"};

/* How a run stands. */
enum state { RUNNING, FINISHED, SAFE };

static uint8_t table[GURVOKE_MAX_TABLE];
static size_t table_len;
static uint8_t record[GURVOKE_RECORD];
static uint32_t now; /* what the clock read in this cycle */
static uint8_t goals[VARIABLES];
static uint8_t estimate[VARIABLES];
static bool panel[VARIABLES]; /* the lights that are on */

/* The drivers. Where a sensor has nothing to say, its byte is GURVOKE_UNKNOWN_VALUE. */
static uint32_t read_clock(void);
static void read_sensors(uint8_t *values);
static void command(int variable, uint8_t value);
static void switch_light(uint32_t variable, bool on);
static void sleep_until_next_cycle(void);

static const char *text_of(uint32_t refusal)
{
    switch (refusal) {
    case GURVOKE_FILE_TOO_SHORT:
        return "the file is too short to hold its sizes";
    case GURVOKE_SIZE_OUT_OF_RANGE:
        return "a size is outside its range";
    case GURVOKE_WRONG_LENGTH:
        return "the file's length does not fit its number of parts";
    case GURVOKE_UNKNOWN_KIND:
        return "unknown kind";
    case GURVOKE_OPERAND_NOT_ALLOWED:
        return "operand not allowed";
    case GURVOKE_NOT_ONE_TREE:
        return "the parts do not form exactly one tree";
    case GURVOKE_TOO_DEEP:
        return "the program is too deep";
    case GURVOKE_BUFFER_TOO_SHORT:
        return "the output buffer is too short";
    case GURVOKE_NOT_A_TABLE:
        return "the table is damaged";
    case GURVOKE_RECORD_NOT_ALLOWED:
        return "the record is damaged";
    case GURVOKE_WRONG_PHASE:
        return "offer or settling out of turn";
    case GURVOKE_TIME_BEFORE_LAST:
        return "the clock went backwards";
    case GURVOKE_ESTIMATE_NOT_ALLOWED:
        return "the sensors gave a value that no variable has";
    case GURVOKE_RUN_FINISHED:
        return "the run is finished";
    case GURVOKE_NOTHING_AT_WORK:
        return "nothing is left that could go on";
    default:
        return "unknown answer";
    }
}

static void report_refusal(const char *call, uint32_t refusal)
{
    printf("%3lu s  %s refused with %lu: %s\n", (unsigned long)now, call, (unsigned long)refusal,
           text_of(refusal));
}

static void command_all(const uint8_t *values)
{
    for (int v = 0; v < VARIABLES; v++)
        command(v, values[v]);
}

/* Reads the program into the table and has the table give it back: what the board is going to run
 * is what stands in its read-only memory. (The calls of a run refuse bytes that are no table. Bytes
 * that have become the table of another program they run: only this comparison would tell.) */
static bool load_program(void)
{
    static uint8_t again[sizeof program];
    uint32_t answer = gurvoke_compile(program, sizeof program, table, sizeof table);
    if (answer != 0) {
        report_refusal("reading", answer);
        return false;
    }
    table_len = GURVOKE_TABLE_LENGTH(table[0]);
    answer = gurvoke_decompile(table, table_len, again, sizeof again);
    if (answer != 0) {
        report_refusal("giving back", answer);
        return false;
    }
    return memcmp(program, again, sizeof program) == 0;
}

static bool begin_run(void)
{
    read_sensors(estimate);
    uint32_t answer =
        gurvoke_begin(table, table_len, estimate, sizeof estimate, record, sizeof record);
    if (answer != 0)
        report_refusal("beginning", answer);
    return answer == 0;
}

/* Whether the board may go on after a refused call, which has changed nothing. */
static bool can_go_on(uint32_t answer)
{
    switch (answer) {
    case GURVOKE_TIME_BEFORE_LAST: /* the clock's next reading may be right again, */
    case GURVOKE_ESTIMATE_NOT_ALLOWED: /* and so may the sensors' */
        return true;
    case GURVOKE_NOT_A_TABLE: /* the run stands in the record, so a new table will do */
        return load_program();
    default: /* a damaged record cannot be mended, and the rest would be faults of this loop */
        return false;
    }
}

/* The deck panel has a light for each variable, and one is on at most: that of the variable that
 * the offer names, the lowest-numbered contested one. So the panels of all boards show the same.
 * Where none is contested GURVOKE_NONE is named, which is no variable, and all lights are off. */
static void light_panel(uint32_t named)
{
    for (uint32_t v = 0; v < VARIABLES; v++)
        switch_light(v, v == named);
}

/* A contested variable gets the board's own value, one without a goal is left alone. */
static void command_goals(void)
{
    for (int v = 0; v < VARIABLES; v++) {
        if (goals[v] == GURVOKE_CONTESTED)
            command(v, when_contested[v]);
        else if (goals[v] != GURVOKE_NO_GOAL)
            command(v, goals[v]);
    }
}

/* Settles with what the sensors say. Where that is refused they are read again, but not for ever:
 * the cycle has to end. */
static uint32_t settle(void)
{
    for (int tries = 1;; tries++) {
        read_sensors(estimate);
        uint32_t answer =
            gurvoke_settle(table, table_len, record, sizeof record, estimate, sizeof estimate);
        if (!GURVOKE_IS_REFUSAL(answer))
            return answer;
        report_refusal("settling", answer);
        if (!can_go_on(answer) || tries == 3)
            return answer;
    }
}

static void print_bytes(const char *title, const uint8_t *bytes)
{
    printf("  %s", title);
    for (int v = 0; v < VARIABLES; v++)
        printf(" %02X", bytes[v]);
}

static void report_cycle(uint32_t settled)
{
    printf("%3lu s", (unsigned long)now);
    print_bytes("goals", goals);
    print_bytes("estimate", estimate);
    printf("  %s", settled == GURVOKE_FINISHED ? "finished" : "running");
    for (int v = 0; v < VARIABLES; v++) {
        if (panel[v])
            printf(", panel: %s", names[v]);
    }
    printf("\n");
}

/* One cycle: offer, light, command, read, settle. Where the offer is refused it does not take place,
 * and the panel stays as it is. */
static enum state cycle(void)
{
    now = read_clock();
    uint32_t offered =
        gurvoke_offer(table, table_len, record, sizeof record, now, goals, sizeof goals);
    if (GURVOKE_IS_REFUSAL(offered)) {
        report_refusal("offer", offered);
        return can_go_on(offered) ? RUNNING : SAFE;
    }

    light_panel(GURVOKE_NAMED(offered));
    command_goals();

    uint32_t settled = settle();
    if (GURVOKE_IS_REFUSAL(settled))
        return SAFE;
    report_cycle(settled);
    return settled == GURVOKE_FINISHED ? FINISHED : RUNNING;
}

/* A whole run. After its end the board makes no more offers: they would be refused with 14. */
static enum state dive(void)
{
    enum state state = begin_run() ? RUNNING : SAFE;
    while (state == RUNNING) {
        state = cycle();
        sleep_until_next_cycle();
    }
    light_panel(GURVOKE_NONE); /* nothing is offered any more */
    command_all(state == FINISHED ? at_rest : when_safe);
    printf("%s\n", state == FINISHED ? "at rest" : "safe state");
    return state;
}

int main(void)
{
    if (!load_program())
        return 1;
    printf("first dive\n");
    if (dive() != FINISHED)
        return 1;
    printf("second dive\n");
    return dive() == SAFE ? 0 : 1; /* as the script has it */
}

/* The rest is made up: what happens to the board, cycle by cycle. */
enum fault { NO_FAULT, NO_ECHO, BAD_ECHO, TABLE_HIT, RECORD_HIT };

static const struct moment {
    uint32_t clock;
    uint8_t frame;
    enum fault fault;
} script[] = {
    /* First dive. Beginning marks the root, the PAR and its four GOALs (0 to 5). */
    /* The GOALs want 2 and 3 of the pump, and 2 and 1 of the lamp: both are contested, goal bytes
     * FE. The lamp is named, variable 0, and not the pump, variable 1, whose GOALs come first. The
     * board's own values are 1 and 2. The lamp gets to 1, so GOAL 5 ends. The pump gets to 1 too,
     * which is not enough for a GOAL. */
    {0, 0, NO_FAULT},
    /* Of the lamp's GOALs 3 alone is left: goal byte 02. The pump is contested, alone, and named.
     * Both get to 2: GOALs 2 and 3 end. */
    {5, 0, NO_FAULT},
    /* Now GOAL 4 alone: goal byte 03 for the pump, nothing is contested, no light is on. It ends,
     * nothing is left of the PAR, which ends and initialises its next, START 6. */
    {10, 0, NO_FAULT},
    /* No GOAL is marked. The START ends and starts clock 0 at 15; MAINTAIN 7, SEQ 8 and WAIT 9 are
     * initialised. */
    {15, 0, NO_FAULT},
    /* The frame is level, so the MAINTAIN is not violated. The clock reads 5: the WAIT waits. The
     * frame's sensor has no echo, so this settling stores that the frame is unknown. */
    {20, 0, NO_ECHO},
    /* 4 is before the last time, 20: refused with 12. The record is as it was. */
    {4, 0, NO_FAULT},
    /* By the stored estimate "frame = 0" is open, not violated, so the MAINTAIN goes on. The clock
     * reads 10: the WAIT waits. The frame's sensor has a bad echo at first and reads 251: that
     * settling is refused with 13, and the second reading, level, settles the cycle. */
    {25, 0, BAD_ECHO},
    /* The clock reads 15. The frame tilts: this settling stores it, but looks at no MAINTAIN. */
    {30, 1, NO_FAULT},
    /* The clock comes due, it reads 20. But the offer comes first: by the stored estimate "frame =
     * 0" is violated, so SEQ 8 and WAIT 9 lose their marks, and no core is ever asked for. At the
     * settling the MAINTAIN has nothing marked inside, ends, and initialises its next, GOAL 11. */
    {35, 1, NO_FAULT},
    /* GOAL 11: release. It ends and has no next; nothing is left in the SEQ, which is the root:
     * finished. */
    {40, 1, NO_FAULT},

    /* Second dive, on the same table and record. All is at rest, so it begins as the first did. */
    {100, 0, NO_FAULT},
    {110, 0, NO_FAULT},
    {120, 0, NO_FAULT},
    /* Clock 0 is started at 130. */
    {130, 0, NO_FAULT},
    /* A bit of the table is wrong: refused with 9. The board reads the program again. */
    {140, 0, TABLE_HIT},
    /* The clock reads 20 and the frame is level: the WAIT ends and initialises GOAL 10. */
    {150, 0, NO_FAULT},
    /* GOAL 10: goal byte 02 for the corer, which begins to work. At 1 it is not yet at 2. */
    {160, 0, NO_FAULT},
    /* The mark of part 11 has become 1. So SEQ 0 has two marked children, 7 and 11, and no record
     * may have that: refused with 10. */
    {170, 0, RECORD_HIT},
    /* The board sleeps once more after its last cycle. */
    {180, 0, NO_FAULT},
};

/* Where the board is in the script, and where its actuators are. */
static size_t moment;
static uint8_t at[VARIABLES];
static bool had_bad_echo;

static uint32_t read_clock(void)
{
    return script[moment].clock;
}

static void read_sensors(uint8_t *values)
{
    memcpy(values, at, sizeof at);
    values[FRAME] = script[moment].frame;
    if (script[moment].fault == NO_ECHO)
        values[FRAME] = GURVOKE_UNKNOWN_VALUE;
    if (script[moment].fault == BAD_ECHO && !had_bad_echo) {
        had_bad_echo = true;
        values[FRAME] = GURVOKE_MAX_VALUE + 1;
    }
}

/* Pump and corer get up by one in each cycle. All else obeys at once. */
static void command(int variable, uint8_t value)
{
    bool rises = (variable == PUMP || variable == CORER) && at[variable] < value;
    at[variable] = rises ? (uint8_t)(at[variable] + 1) : value;
}

static void switch_light(uint32_t variable, bool on)
{
    panel[variable] = on;
}

static void sleep_until_next_cycle(void)
{
    moment++;
    if (script[moment].fault == TABLE_HIT)
        table[GURVOKE_ROW_PLACE(7) + GURVOKE_END_PLACE] ^= 1; /* the end of part 7 */
    if (script[moment].fault == RECORD_HIT)
        record[GURVOKE_MARKS_PLACE + 11] ^= 1; /* the mark of part 11 */
}
