/*
 * The ten stations of document 01, its refusals, the misreadings that it names and some further
 * programs, those of document 02's requests among them, as calls with what each
 * must answer and every byte that it must leave. It runs on any library with this header, and needs
 * nothing else:
 *
 *   gcc -Iinclude examples/stations.c LIBRARY -o stations && ./stations
 *
 * A station that is as the papers say has one line of output, and one that is not has the first
 * difference; then the exit status is 1. The output of a right library is examples/stations.out.
 * Everything here was worked out from the papers, and nothing from what a library printed.
 *
 * Each station runs twice: with buffers of just the length that is needed, and with longer ones.
 * After every call all buffers are compared whole, what is lent of them and what lies behind. So a
 * refused call must leave every byte, and an accepted one every byte that is not its own.
 */
#include "gurvoke.h"

#include <stdbool.h>
#include <stdio.h>
#include <string.h>

/* What a step of a station is: its name, a call, or what is done or known between calls. */
enum what {
    NAME,
    COMPILE,
    DECOMPILE,
    BEGIN,
    OFFER,
    SETTLE,
    CLOCK,
    CYCLES,
    IN_TABLE,
    IN_RECORD,
    LEND,
    LONGEST
};

/* Bytes are written in hexadecimal, marks as a digit for each part. */
struct step {
    enum what what;
    const char *bytes; /* a name; a file, a table, an estimate or goals */
    const char *after; /* the table of the file; the marks after the call */
    uint32_t number; /* a time, a clock, a place, or how many cycles */
    size_t value; /* the room of a refused call, a start, a byte, or a length */
    uint32_t answer;
};

#define STATION(name) {NAME, name, "", 0, 0, 0}

/* Calls that are accepted. A file is compiled, and its table must give it back. An offer names no
 * variable, or the lowest-numbered of those that are contested. */
#define COMPILED(file, table) {COMPILE, file, table, 0, 0, 0}
#define BEGUN(estimate, marks) {BEGIN, estimate, marks, 0, 0, 0}
#define NAMED(named, time, goals, marks) {OFFER, goals, marks, time, 0, GURVOKE_ANSWERED + (named)}
#define OFFERED(time, goals, marks) NAMED(GURVOKE_NONE, time, goals, marks)
#define RUNNING(estimate, marks) {SETTLE, estimate, marks, 0, 0, GURVOKE_RUNNING}
#define FINISHED(estimate, marks) {SETTLE, estimate, marks, 0, 0, GURVOKE_FINISHED}

/* Calls that are refused with a number. The room is the length of the output, or of the goals. */
#define FILE_REFUSED(file, room, no) {COMPILE, file, "", 0, room, no}
#define TABLE_REFUSED(table, room, no) {DECOMPILE, table, "", 0, room, no}
#define BEGIN_REFUSED(estimate, room, no) {BEGIN, estimate, "", 0, room, no}
#define OFFER_REFUSED(time, room, no) {OFFER, "", "", time, room, no}
#define SETTLE_REFUSED(estimate, no) {SETTLE, estimate, "", 0, 0, no}

/* The next settling starts a clock, or starts it again. The run has finished in so many cycles, or
 * in none yet (0). */
#define STARTS(clock, start) {CLOCK, "", "", clock, start, 0}
#define FINISHED_IN(cycles) {CYCLES, "", "", cycles, 0, 0}

/* Somebody changes a byte of the table or of the record, or lends the record so long. */
#define TABLE_BYTE(place, byte) {IN_TABLE, "", "", place, byte, 0}
#define RECORD_BYTE(place, byte) {IN_RECORD, "", "", place, byte, 0}
#define RECORD_LENT(length) {LEND, "", "", 0, length, 0}

/* The longest program, whose texts are written where it runs. */
#define LONGEST_PROGRAM {LONGEST, "", "", 0, 0, 0}

/* A byte that no record may have where another stands: neither call takes the record (10). */
#define NOT_ALLOWED(place, wrong, right)                                                         \
    RECORD_BYTE(place, wrong), OFFER_REFUSED(0, 0, 10), SETTLE_REFUSED("FB", 10),                \
        RECORD_BYTE(place, right)

#define MARK(part) (GURVOKE_MARKS_PLACE + (part))

/* One variable, one clock: the programs that more than one station has, and their tables. */
#define GOAL_1 "01 01 01  01  00 00 01 00"
#define GOAL_1_TABLE "01 01 01  01 01 FF FF 00 00 01 00"
#define WAITS "03 01 01 04 02 03 02 00 00 00 00 00 00 00 03 00 0A 00"
#define WAITS_TABLE                                                                              \
    "03 01 01"                                                                                   \
    "04 03 FF FF 02 00 00 00"                                                                    \
    "02 02 00 02 00 00 00 00"                                                                    \
    "03 03 00 FF 03 00 0A 00"
#define WAITS_BELOW "03 01 01  04 02 03  02 00 00 00  00 00 00 00  04 00 05 00"
#define WAITS_BELOW_TABLE                                                                        \
    "03 01 01"                                                                                   \
    "04 03 FF FF 02 00 00 00"                                                                    \
    "02 02 00 02 00 00 00 00"                                                                    \
    "03 03 00 FF 04 00 05 00"

/* REPEATs: the kinds and the operands of 15, and the file of 16 above a GOAL. */
#define KINDS_5 "08 08 08 08 08"
#define KINDS_15 KINDS_5 KINDS_5 KINDS_5
#define OPERANDS_3 "00 00 00 00  00 00 00 00  00 00 00 00"
#define OPERANDS_15 OPERANDS_3 OPERANDS_3 OPERANDS_3 OPERANDS_3 OPERANDS_3
#define REPEATS_16 "11 01 01" KINDS_15 "08 01" OPERANDS_15 "00 00 00 00  00 00 01 00"

/* Bytes of many variables. */
#define TEN(byte) byte byte byte byte byte byte byte byte byte byte
#define THIRTY(byte) TEN(byte) TEN(byte) TEN(byte)
#define THIRTY_ONE(byte) THIRTY(byte) byte

/* Station 2 with one estimate of "any settling", station 3 with one time of "any first time". */
#define SETTLED_WITH(estimate)                                                                   \
    BEGUN("02", "11"), OFFERED(0, "FF", "10"), FINISHED(estimate, "00"), FINISHED_IN(1)
#define FIRST_AT(time) BEGUN("00", "11"), OFFERED(time, "01", "11")

static const struct step steps[] = {
    STATION("station 1"), /* GOAL 0=1 */
    COMPILED(GOAL_1, GOAL_1_TABLE),
    BEGUN("00", "1"),
    OFFERED(0, "01", "1"),
    RUNNING("00", "1"),
    OFFERED(0, "01", "1"),
    FINISHED("01", "0"),
    FINISHED_IN(2),

    STATION("station 2"), /* MAINTAIN(0 differs from 2, GOAL 0=1) */
    COMPILED("02 01 01  06 01  02 00 02 00  00 00 01 00",
             "02 01 01  06 02 FF FF 02 00 02 00  01 02 00 FF 00 00 01 00"),
    SETTLED_WITH("00"),
    SETTLED_WITH("01"),
    SETTLED_WITH("02"),
    SETTLED_WITH("03"),
    SETTLED_WITH("FA"),
    SETTLED_WITH("FF"),

    STATION("station 3"), /* MAINTAIN(clock 0 below 5, GOAL 0=1) */
    COMPILED("02 01 01  06 01  04 00 05 00  00 00 01 00",
             "02 01 01  06 02 FF FF 04 00 05 00  01 02 00 FF 00 00 01 00"),
    FIRST_AT(0),
    FIRST_AT(1),
    FIRST_AT(4),
    FIRST_AT(5),
    FIRST_AT(6),
    FIRST_AT(7),
    FIRST_AT(256),
    FIRST_AT(65536),
    FIRST_AT(4294967295u),

    STATION("station 4"), /* CHOICE(clock 0 at least 0; GOAL 0=1; GOAL 0=2) */
    COMPILED("03 01 01  07 01 01  03 00 00 00  00 00 01 00  00 00 02 00",
             "03 01 01"
             "07 03 FF FF 03 00 00 00"
             "01 02 00 FF 00 00 01 00"
             "01 03 00 FF 00 00 02 00"),
    BEGUN("00", "100"),
    OFFERED(0, "FF", "100"),
    RUNNING("00", "101"),
    OFFERED(0, "02", "101"),
    FINISHED_IN(0),

    STATION("station 5"), /* PAR(GOAL 0=1, GOAL 0=2) */
    COMPILED("03 01 01  05 01 01  02 00 00 00  00 00 01 00  00 00 02 00",
             "03 01 01"
             "05 03 FF FF 02 00 00 00"
             "01 02 00 FF 00 00 01 00"
             "01 03 00 FF 00 00 02 00"),
    BEGUN("00", "111"),
    NAMED(0, 0, "FE", "111"),
    RUNNING("01", "101"),
    OFFERED(0, "02", "101"),
    FINISHED_IN(0),

    STATION("station 6"), /* REPEAT(GOAL 0=1) */
    COMPILED("02 01 01  08 01  00 00 00 00  00 00 01 00",
             "02 01 01  08 02 FF FF 00 00 00 00  01 02 00 01 00 00 01 00"),
    BEGUN("00", "11"),
    OFFERED(0, "01", "11"),
    RUNNING("01", "11"),
    OFFERED(0, "01", "11"),
    FINISHED_IN(0),

    STATION("station 7"), /* SEQ(START 0, START 0) */
    COMPILED("03 01 01  04 02 02  02 00 00 00  00 00 00 00  00 00 00 00",
             "03 01 01"
             "04 03 FF FF 02 00 00 00"
             "02 02 00 02 00 00 00 00"
             "02 03 00 FF 00 00 00 00"),
    BEGUN("00", "110"),
    OFFERED(10, "FF", "110"),
    STARTS(0, 10),
    RUNNING("00", "101"),
    OFFERED(20, "FF", "101"),
    STARTS(0, 20),
    FINISHED("00", "000"),
    FINISHED_IN(2),

    STATION("station 8"), /* SEQ(START 0, WAIT clock 0 at least 10) */
    COMPILED(WAITS, WAITS_TABLE),
    BEGUN("00", "110"),
    OFFERED(100, "FF", "110"),
    STARTS(0, 100),
    RUNNING("00", "101"),
    OFFERED(109, "FF", "101"),
    RUNNING("00", "101"),
    OFFERED(110, "FF", "101"),
    FINISHED("00", "000"),
    FINISHED_IN(3),

    STATION("station 9"), /* 15 REPEATs above a GOAL, and 16 */
    COMPILED("10 01 01" KINDS_15 "01" OPERANDS_15 "00 00 01 00",
             "10 01 01"
             "08 10 FF FF 00 00 00 00"
             "08 10 00 01 00 00 00 00"
             "08 10 01 02 00 00 00 00"
             "08 10 02 03 00 00 00 00"
             "08 10 03 04 00 00 00 00"
             "08 10 04 05 00 00 00 00"
             "08 10 05 06 00 00 00 00"
             "08 10 06 07 00 00 00 00"
             "08 10 07 08 00 00 00 00"
             "08 10 08 09 00 00 00 00"
             "08 10 09 0A 00 00 00 00"
             "08 10 0A 0B 00 00 00 00"
             "08 10 0B 0C 00 00 00 00"
             "08 10 0C 0D 00 00 00 00"
             "08 10 0D 0E 00 00 00 00"
             "01 10 0E 0F 00 00 01 00"),
    BEGUN("00", "1111111111111111"),
    OFFERED(0, "01", "1111111111111111"),
    RUNNING("01", "1111111111111111"),
    FILE_REFUSED(REPEATS_16, GURVOKE_MAX_TABLE, 7),

    STATION("station 10"), /* a file, its table, and the file again */
    COMPILED(WAITS, WAITS_TABLE),

    STATION("misreading 1"), /* a clock started this cycle read at this settling */
    /* PAR(START 0, WAIT clock 0 at least 0): the WAIT waits for one more cycle */
    COMPILED("03 01 01  05 02 03  02 00 00 00  00 00 00 00  03 00 00 00",
             "03 01 01"
             "05 03 FF FF 02 00 00 00"
             "02 02 00 FF 00 00 00 00"
             "03 03 00 FF 03 00 00 00"),
    BEGUN("00", "111"),
    OFFERED(10, "FF", "111"),
    STARTS(0, 10),
    RUNNING("00", "101"),
    OFFERED(10, "FF", "101"),
    FINISHED("00", "000"),
    FINISHED_IN(2),

    STATION("misreading 2"), /* an unstarted clock taken as 0, so "below 5" holds */
    /* WAIT clock 0 below 5: it is not satisfied */
    COMPILED("01 01 01  03  04 00 05 00", "01 01 01  03 01 FF FF 04 00 05 00"),
    BEGUN("00", "1"),
    OFFERED(0, "FF", "1"),
    RUNNING("00", "1"),
    OFFERED(4, "FF", "1"),
    RUNNING("00", "1"),
    /* MAINTAIN(clock 0 at least 5, GOAL 0=1): it is not violated either */
    COMPILED("02 01 01  06 01  03 00 05 00  00 00 01 00",
             "02 01 01  06 02 FF FF 03 00 05 00  01 02 00 FF 00 00 01 00"),
    FIRST_AT(0),
    FIRST_AT(5),
    FIRST_AT(7),

    STATION("misreading 3"), /* a CHOICE whose branch has just ended taken for a deciding one */
    /* SEQ(CHOICE(0=0; GOAL 0=1; GOAL 0=2), GOAL 0=3), without a clock: it ends with its branch */
    COMPILED("05 01 00  04 07 01 01 01"
             "02 00 00 00  01 00 00 00  00 00 01 00  00 00 02 00  00 00 03 00",
             "05 01 00"
             "04 05 FF FF 02 00 00 00"
             "07 04 00 04 01 00 00 00"
             "01 03 01 FF 00 00 01 00"
             "01 04 01 FF 00 00 02 00"
             "01 05 00 FF 00 00 03 00"),
    BEGUN("00", "11000"),
    OFFERED(0, "FF", "11000"),
    RUNNING("00", "11100"),
    OFFERED(0, "01", "11100"),
    RUNNING("01", "10001"),
    OFFERED(0, "03", "10001"),
    FINISHED("03", "00000"),
    FINISHED_IN(3),

    STATION("misreading 4"), /* a part initialised at this settling judged in the same settling */
    /* SEQ(GOAL 0=1, GOAL 0=1): a cycle for each */
    COMPILED("03 01 00  04 01 01  02 00 00 00  00 00 01 00  00 00 01 00",
             "03 01 00"
             "04 03 FF FF 02 00 00 00"
             "01 02 00 02 00 00 01 00"
             "01 03 00 FF 00 00 01 00"),
    BEGUN("00", "110"),
    OFFERED(0, "01", "110"),
    RUNNING("01", "101"),
    OFFERED(0, "01", "101"),
    FINISHED("01", "000"),
    FINISHED_IN(2),

    STATION("WAIT on a value"), /* WAIT 0=1 */
    COMPILED("01 01 01  03  01 00 01 00", "01 01 01  03 01 FF FF 01 00 01 00"),
    BEGUN("00", "1"),
    OFFERED(0, "FF", "1"),
    RUNNING("00", "1"),
    OFFERED(0, "FF", "1"),
    FINISHED("01", "0"),
    FINISHED_IN(2),

    STATION("WAIT below"), /* SEQ(START 0, WAIT clock 0 below 5), on either side of 5 */
    COMPILED(WAITS_BELOW, WAITS_BELOW_TABLE),
    BEGUN("00", "110"),
    OFFERED(10, "FF", "110"),
    STARTS(0, 10),
    RUNNING("00", "101"),
    OFFERED(15, "FF", "101"),
    RUNNING("00", "101"),
    FINISHED_IN(0),
    BEGUN("00", "110"),
    OFFERED(10, "FF", "110"),
    STARTS(0, 10),
    RUNNING("00", "101"),
    OFFERED(14, "FF", "101"),
    FINISHED("00", "000"),
    FINISHED_IN(2),
    BEGUN("00", "110"),
    OFFERED(0, "FF", "110"),
    STARTS(0, 0),
    RUNNING("00", "101"),
    OFFERED(4294967295u, "FF", "101"),
    RUNNING("00", "101"),

    STATION("values of two bytes"), /* SEQ(START 0, WAIT clock 0 at least 300) */
    COMPILED("03 01 01  04 02 03  02 00 00 00  00 00 00 00  03 00 2C 01",
             "03 01 01"
             "04 03 FF FF 02 00 00 00"
             "02 02 00 02 00 00 00 00"
             "03 03 00 FF 03 00 2C 01"),
    BEGUN("00", "110"),
    OFFERED(1000, "FF", "110"),
    STARTS(0, 1000),
    RUNNING("00", "101"),
    OFFERED(1299, "FF", "101"),
    RUNNING("00", "101"),
    OFFERED(1300, "FF", "101"),
    FINISHED("00", "000"),
    BEGUN("00", "110"),
    OFFERED(0, "FF", "110"),
    STARTS(0, 0),
    RUNNING("00", "101"),
    OFFERED(4294967295u, "FF", "101"), /* the clock reads as much */
    FINISHED("00", "000"),
    /* SEQ(START 0, MAINTAIN(clock 0 below 65535, GOAL 0=1)): violated from 65535 on, for ever */
    COMPILED("04 01 01  04 02 06 01  02 00 00 00  00 00 00 00  04 00 FF FF  00 00 01 00",
             "04 01 01"
             "04 04 FF FF 02 00 00 00"
             "02 02 00 02 00 00 00 00"
             "06 04 00 FF 04 00 FF FF"
             "01 04 02 FF 00 00 01 00"),
    BEGUN("00", "1100"),
    OFFERED(1, "FF", "1100"),
    STARTS(0, 1),
    RUNNING("00", "1011"),
    OFFERED(65535, "01", "1011"),
    RUNNING("00", "1011"),
    OFFERED(65537, "FF", "1010"),
    FINISHED("00", "0000"),
    FINISHED_IN(3),

    STATION("the largest value"), /* GOAL 0=250; 251 is refused, and so is an estimate of 251 */
    COMPILED("01 01 00  01  00 00 FA 00", "01 01 00  01 01 FF FF 00 00 FA 00"),
    BEGUN("FA", "1"),
    OFFERED(0, "FA", "1"),
    SETTLE_REFUSED("FB", 13),
    FINISHED("FA", "0"),
    FILE_REFUSED("01 01 00  01  00 00 FB 00", GURVOKE_MAX_TABLE, 5),
    FILE_REFUSED("01 01 00  01  00 00 FF 00", GURVOKE_MAX_TABLE, 5), /* nobody asks for unknown */
    FILE_REFUSED("01 01 00  01  00 00 00 01", GURVOKE_MAX_TABLE, 5),
    /* WAIT 0=250, WAIT 0 differs from 250: the same bounds */
    COMPILED("01 01 00  03  01 00 FA 00", "01 01 00  03 01 FF FF 01 00 FA 00"),
    FILE_REFUSED("01 01 00  03  01 00 FB 00", GURVOKE_MAX_TABLE, 5),
    FILE_REFUSED("01 01 00  03  01 00 FF 00", GURVOKE_MAX_TABLE, 5),
    FILE_REFUSED("01 01 00  03  01 00 01 01", GURVOKE_MAX_TABLE, 5),
    COMPILED("01 01 00  03  02 00 FA 00", "01 01 00  03 01 FF FF 02 00 FA 00"),
    FILE_REFUSED("01 01 00  03  02 00 FB 00", GURVOKE_MAX_TABLE, 5),
    FILE_REFUSED("01 01 00  03  02 00 FF 00", GURVOKE_MAX_TABLE, 5),
    FILE_REFUSED("01 01 00  03  02 00 01 01", GURVOKE_MAX_TABLE, 5),

    STATION("contested variables"),
    /* PAR(GOAL 1=1, GOAL 1=2, GOAL 2=7, GOAL 2=8, GOAL 3=9, GOAL 3=9): 1 and 2 are contested, and
     * the lower is named; then 2 alone is contested, and named */
    COMPILED("07 04 00  05 01 01 01 01 01 01"
             "06 00 00 00  00 01 01 00  00 01 02 00  00 02 07 00"
             "00 02 08 00  00 03 09 00  00 03 09 00",
             "07 04 00"
             "05 07 FF FF 06 00 00 00"
             "01 02 00 FF 00 01 01 00"
             "01 03 00 FF 00 01 02 00"
             "01 04 00 FF 00 02 07 00"
             "01 05 00 FF 00 02 08 00"
             "01 06 00 FF 00 03 09 00"
             "01 07 00 FF 00 03 09 00"),
    BEGUN("00 00 00 00", "1111111"),
    NAMED(1, 3, "FF FE FE 09", "1111111"),
    RUNNING("05 02 00 06", "1101111"),
    NAMED(2, 3, "FF 01 FE 09", "1101111"),
    RUNNING("05 02 07 06", "1100111"),
    OFFERED(3, "FF 01 08 09", "1100111"),
    RUNNING("05 02 08 09", "1100000"),
    OFFERED(3, "FF 01 FF FF", "1100000"),
    FINISHED("05 01 08 09", "0000000"),
    FINISHED_IN(4),

    STATION("the first and the last variable contested"),
    /* PAR(GOAL 31=1, GOAL 31=2, GOAL 0=1, GOAL 0=2): 0 is named, then 31 when it alone is left */
    COMPILED("05 20 00  05 01 01 01 01"
             "04 00 00 00  00 1F 01 00  00 1F 02 00  00 00 01 00  00 00 02 00",
             "05 20 00"
             "05 05 FF FF 04 00 00 00"
             "01 02 00 FF 00 1F 01 00"
             "01 03 00 FF 00 1F 02 00"
             "01 04 00 FF 00 00 01 00"
             "01 05 00 FF 00 00 02 00"),
    BEGUN("00" THIRTY("00") "00", "11111"),
    NAMED(0, 0, "FE" THIRTY("FF") "FE", "11111"),
    RUNNING("01" THIRTY("00") "00", "11101"),
    NAMED(31, 0, "02" THIRTY("FF") "FE", "11101"),
    RUNNING("02" THIRTY("00") "01", "10100"),
    OFFERED(0, "FF" THIRTY("FF") "02", "10100"),
    FINISHED("00" THIRTY("00") "02", "00000"),
    FINISHED_IN(3),
    /* or 0 when it alone is left */
    BEGUN("00" THIRTY("00") "00", "11111"),
    NAMED(0, 0, "FE" THIRTY("FF") "FE", "11111"),
    RUNNING("00" THIRTY("00") "02", "11011"),
    NAMED(0, 0, "FE" THIRTY("FF") "01", "11011"),

    STATION("contested among others"),
    /* PAR(GOAL 5=1, GOAL 0=5, GOAL 1=7, GOAL 3=1, GOAL 1=7, GOAL 3=250, GOAL 5=2), six variables: 3
     * and 5 are contested; 0 has one GOAL, those of 1 agree, 2 and 4 have none */
    COMPILED("08 06 00  05 01 01 01 01 01 01 01"
             "07 00 00 00  00 05 01 00  00 00 05 00  00 01 07 00"
             "00 03 01 00  00 01 07 00  00 03 FA 00  00 05 02 00",
             "08 06 00"
             "05 08 FF FF 07 00 00 00"
             "01 02 00 FF 00 05 01 00"
             "01 03 00 FF 00 00 05 00"
             "01 04 00 FF 00 01 07 00"
             "01 05 00 FF 00 03 01 00"
             "01 06 00 FF 00 01 07 00"
             "01 07 00 FF 00 03 FA 00"
             "01 08 00 FF 00 05 02 00"),
    BEGUN("00 00 00 00 00 00", "11111111"),
    NAMED(3, 0, "05 07 FF FE FF FE", "11111111"),
    RUNNING("05 00 00 FA 00 00", "11011101"),
    NAMED(5, 0, "FF 07 FF 01 FF FE", "11011101"),
    RUNNING("00 07 00 00 00 01", "10001001"),
    OFFERED(0, "FF FF FF 01 FF 02", "10001001"),

    STATION("values 1, 2, 1"),
    /* PAR(GOAL 0=1, GOAL 0=2, GOAL 0=1): two differ. Once 2 has ended the others agree, */
    COMPILED("04 01 00  05 01 01 01  03 00 00 00  00 00 01 00  00 00 02 00  00 00 01 00",
             "04 01 00"
             "05 04 FF FF 03 00 00 00"
             "01 02 00 FF 00 00 01 00"
             "01 03 00 FF 00 00 02 00"
             "01 04 00 FF 00 00 01 00"),
    BEGUN("00", "1111"),
    NAMED(0, 0, "FE", "1111"),
    RUNNING("02", "1101"),
    OFFERED(0, "01", "1101"),
    FINISHED("01", "0000"),
    FINISHED_IN(2),
    /* and once both 1 have ended, 2 is alone */
    BEGUN("00", "1111"),
    NAMED(0, 0, "FE", "1111"),
    RUNNING("00", "1111"),
    NAMED(0, 0, "FE", "1111"),
    RUNNING("01", "1010"),
    OFFERED(0, "02", "1010"),
    FINISHED("02", "0000"),
    FINISHED_IN(3),

    STATION("a MAINTAIN that breaks contests nothing"),
    /* PAR(MAINTAIN(2 differs from 1, PAR(GOAL 0=1, GOAL 0=2)), GOAL 1=1, GOAL 1=2): 0 is named, and
     * 1 from the offer on that finds the MAINTAIN violated */
    COMPILED("07 03 00  05 06 05 01 01 01 01"
             "03 00 00 00  02 02 01 00  02 00 00 00  00 00 01 00"
             "00 00 02 00  00 01 01 00  00 01 02 00",
             "07 03 00"
             "05 07 FF FF 03 00 00 00"
             "06 05 00 FF 02 02 01 00"
             "05 05 01 FF 02 00 00 00"
             "01 04 02 FF 00 00 01 00"
             "01 05 02 FF 00 00 02 00"
             "01 06 00 FF 00 01 01 00"
             "01 07 00 FF 00 01 02 00"),
    BEGUN("00 00 00", "1111111"),
    NAMED(0, 0, "FE FE FF", "1111111"),
    RUNNING("00 00 01", "1111111"),
    NAMED(1, 0, "FF FE FF", "1100011"),
    RUNNING("00 00 00", "1000011"),
    NAMED(1, 0, "FF FE FF", "1000011"),
    RUNNING("00 02 00", "1000010"),
    OFFERED(0, "FF 01 FF", "1000010"),
    FINISHED_IN(0),

    STATION("a MAINTAIN that breaks starts no clock"), /* MAINTAIN(0=0, START 0) */
    COMPILED("02 01 01  06 02  01 00 00 00  00 00 00 00",
             "02 01 01  06 02 FF FF 01 00 00 00  02 02 00 FF 00 00 00 00"),
    BEGUN("01", "11"),
    OFFERED(8, "FF", "10"),
    FINISHED("00", "00"),
    FINISHED_IN(1),
    /* and where 0 is unknown it does not break */
    BEGUN("FF", "11"),
    OFFERED(8, "FF", "11"),
    STARTS(0, 8),
    FINISHED("FF", "00"),
    FINISHED_IN(1),
    /* SEQ(START 0, PAR(MAINTAIN(0=0, START 0), START 1)), two clocks: clock 0 keeps its start, and
     * the START outside starts clock 1 */
    COMPILED("06 01 02  04 02 05 06 02 02"
             "02 00 00 00  00 00 00 00  02 00 00 00  01 00 00 00  00 00 00 00  00 01 00 00",
             "06 01 02"
             "04 06 FF FF 02 00 00 00"
             "02 02 00 02 00 00 00 00"
             "05 06 00 FF 02 00 00 00"
             "06 05 02 FF 01 00 00 00"
             "02 05 03 FF 00 00 00 00"
             "02 06 02 FF 00 01 00 00"),
    BEGUN("00", "110000"),
    OFFERED(10, "FF", "110000"),
    STARTS(0, 10),
    RUNNING("01", "101111"),
    OFFERED(20, "FF", "101101"),
    STARTS(1, 20),
    FINISHED("00", "000000"),
    FINISHED_IN(2),
    /* and where it does not break, the START inside it sets clock 0 */
    BEGUN("00", "110000"),
    OFFERED(10, "FF", "110000"),
    STARTS(0, 10),
    RUNNING("00", "101111"),
    OFFERED(20, "FF", "101111"),
    STARTS(0, 20),
    STARTS(1, 20),
    FINISHED("01", "000000"),
    FINISHED_IN(2),

    STATION("a START that is newly marked starts no clock"), /* SEQ(GOAL 0=1, START 0) */
    COMPILED("03 01 01  04 01 02  02 00 00 00  00 00 01 00  00 00 00 00",
             "03 01 01"
             "04 03 FF FF 02 00 00 00"
             "01 02 00 02 00 00 01 00"
             "02 03 00 FF 00 00 00 00"),
    BEGUN("00", "110"),
    OFFERED(3, "01", "110"),
    RUNNING("01", "101"),
    OFFERED(8, "FF", "101"),
    STARTS(0, 8),
    FINISHED("01", "000"),
    FINISHED_IN(2),

    STATION("a doubtful cycle"), /* docs/DEFINITIONS.md goes through it */
    COMPILED("07 02 01  04 06 04 02 03 01 01"
             "02 00 00 00  01 01 00 00  03 00 00 00  00 00 00 00"
             "03 00 0A 00  00 00 02 00  00 00 01 00",
             "07 02 01"
             "04 07 FF FF 02 00 00 00"
             "06 06 00 06 01 01 00 00"
             "04 06 01 FF 03 00 00 00"
             "02 04 02 04 00 00 00 00"
             "03 05 02 05 03 00 0A 00"
             "01 06 02 FF 00 00 02 00"
             "01 07 00 FF 00 00 01 00"),
    BEGUN("00 00", "1111000"),
    OFFERED(100, "FF FF", "1111000"),
    STARTS(0, 100),
    RUNNING("00 00", "1110100"),
    OFFERED(109, "FF FF", "1110100"),
    RUNNING("00 01", "1110100"),
    OFFERED(110, "FF FF", "1100000"),
    RUNNING("00 00", "1000001"),
    OFFERED(110, "01 FF", "1000001"),
    FINISHED("01 00", "0000000"),
    FINISHED_IN(4),
    /* and with 1 unknown as the clock comes due: the MAINTAIN goes on, the WAIT ends, and the GOAL
     * after it is marked until 1 is known to be 1 */
    BEGUN("00 00", "1111000"),
    OFFERED(100, "FF FF", "1111000"),
    STARTS(0, 100),
    RUNNING("00 00", "1110100"),
    OFFERED(109, "FF FF", "1110100"),
    RUNNING("00 FF", "1110100"),
    OFFERED(110, "FF FF", "1110100"),
    RUNNING("00 FF", "1110010"),
    OFFERED(110, "02 FF", "1110010"),
    RUNNING("00 01", "1110010"),
    OFFERED(110, "FF FF", "1100000"),
    RUNNING("00 FF", "1000001"),
    OFFERED(110, "01 FF", "1000001"),
    FINISHED("01 FF", "0000000"),
    FINISHED_IN(6),

    STATION("a REPEAT beside a WAIT"),
    /* PAR(WAIT clock 0 at least 20, REPEAT(SEQ(START 0, CHOICE(clock 0 at least 10; GOAL 0=1;
     * GOAL 0=2)))): the CHOICE decides in each round, by that round's start, and ends with its
     * branch; the WAIT ends when 20 seconds have gone by since the last start */
    COMPILED("08 01 01  05 03 08 04 02 07 01 01"
             "02 00 00 00  03 00 14 00  00 00 00 00  02 00 00 00"
             "00 00 00 00  03 00 0A 00  00 00 01 00  00 00 02 00",
             "08 01 01"
             "05 08 FF FF 02 00 00 00"
             "03 02 00 FF 03 00 14 00"
             "08 08 00 FF 00 00 00 00"
             "04 08 02 03 02 00 00 00"
             "02 05 03 05 00 00 00 00"
             "07 08 03 FF 03 00 0A 00"
             "01 07 05 FF 00 00 01 00"
             "01 08 05 FF 00 00 02 00"),
    BEGUN("00", "11111000"),
    OFFERED(5, "FF", "11111000"),
    STARTS(0, 5),
    RUNNING("00", "11110100"),
    OFFERED(14, "FF", "11110100"), /* the clock reads 9: the second child */
    RUNNING("00", "11110101"),
    OFFERED(15, "02", "11110101"),
    RUNNING("02", "11111000"),
    OFFERED(24, "FF", "11111000"), /* it reads 19: the WAIT waits, and the clock is started again */
    STARTS(0, 24),
    RUNNING("00", "11110100"),
    OFFERED(33, "FF", "11110100"), /* it reads 9: the second child again */
    RUNNING("00", "11110101"),
    OFFERED(33, "02", "11110101"),
    RUNNING("02", "11111000"),
    OFFERED(43, "FF", "11111000"), /* it reads 19 */
    STARTS(0, 43),
    RUNNING("00", "11110100"),
    OFFERED(53, "FF", "11110100"), /* it reads 10: the first child */
    RUNNING("00", "11110110"),
    OFFERED(62, "01", "11110110"), /* it reads 19 */
    RUNNING("00", "11110110"),
    OFFERED(63, "01", "11110110"), /* it reads 20: the WAIT ends, and the next round begins */
    RUNNING("01", "10111000"),
    OFFERED(63, "FF", "10111000"),
    STARTS(0, 63),
    RUNNING("01", "10110100"),
    FINISHED_IN(0),

    STATION("a START beside a WAIT on its clock"),
    /* SEQ(START 0, PAR(START 0, WAIT clock 0 at least 5)): in the cycle of the second START the WAIT
     * reads the first start, */
    COMPILED("05 01 01  04 02 05 02 03"
             "02 00 00 00  00 00 00 00  02 00 00 00  00 00 00 00  03 00 05 00",
             "05 01 01"
             "04 05 FF FF 02 00 00 00"
             "02 02 00 02 00 00 00 00"
             "05 05 00 FF 02 00 00 00"
             "02 04 02 FF 00 00 00 00"
             "03 05 02 FF 03 00 05 00"),
    BEGUN("00", "11000"),
    OFFERED(10, "FF", "11000"),
    STARTS(0, 10),
    RUNNING("00", "10111"),
    OFFERED(15, "FF", "10111"), /* the clock reads 5 */
    STARTS(0, 15),
    FINISHED("00", "00000"),
    FINISHED_IN(2),
    /* and from the next cycle on the second */
    BEGUN("00", "11000"),
    OFFERED(10, "FF", "11000"),
    STARTS(0, 10),
    RUNNING("00", "10111"),
    OFFERED(14, "FF", "10111"), /* it reads 4 */
    STARTS(0, 14),
    RUNNING("00", "10101"),
    OFFERED(18, "FF", "10101"), /* 4 */
    RUNNING("00", "10101"),
    OFFERED(19, "FF", "10101"), /* 5 */
    FINISHED("00", "00000"),
    FINISHED_IN(4),
    /* SEQ(START 0, PAR(WAIT clock 0 below 5, START 0)), the same with the WAIT first */
    COMPILED("05 01 01  04 02 05 03 02"
             "02 00 00 00  00 00 00 00  02 00 00 00  04 00 05 00  00 00 00 00",
             "05 01 01"
             "04 05 FF FF 02 00 00 00"
             "02 02 00 02 00 00 00 00"
             "05 05 00 FF 02 00 00 00"
             "03 04 02 FF 04 00 05 00"
             "02 05 02 FF 00 00 00 00"),
    BEGUN("00", "11000"),
    OFFERED(10, "FF", "11000"),
    STARTS(0, 10),
    RUNNING("00", "10111"),
    OFFERED(15, "FF", "10111"), /* it reads 5 */
    STARTS(0, 15),
    RUNNING("00", "10110"),
    OFFERED(19, "FF", "10110"), /* 4 */
    FINISHED("00", "00000"),
    FINISHED_IN(3),

    STATION("a limit from the start of each round"),
    /* MAINTAIN(clock 0 below 5, REPEAT(START 0)): it breaks at the offer 5 seconds after the last
     * start, and that stays */
    COMPILED("03 01 01  06 08 02  04 00 05 00  00 00 00 00  00 00 00 00",
             "03 01 01"
             "06 03 FF FF 04 00 05 00"
             "08 03 00 FF 00 00 00 00"
             "02 03 01 02 00 00 00 00"),
    BEGUN("00", "111"),
    OFFERED(10, "FF", "111"),
    STARTS(0, 10),
    RUNNING("00", "111"),
    OFFERED(14, "FF", "111"),
    STARTS(0, 14),
    RUNNING("00", "111"),
    OFFERED(18, "FF", "111"),
    STARTS(0, 18),
    RUNNING("00", "111"),
    OFFERED(18, "FF", "111"), /* the time stands still, and so does the start */
    RUNNING("00", "111"),
    OFFERED(23, "FF", "100"),
    FINISHED("00", "000"),
    FINISHED_IN(5),

    STATION("the last clock and the last time"),
    /* SEQ(START 15, PAR(START 14, START 14), START 15), 16 clocks */
    COMPILED("06 01 10  04 02 05 02 02 02"
             "03 00 00 00  00 0F 00 00  02 00 00 00  00 0E 00 00  00 0E 00 00  00 0F 00 00",
             "06 01 10"
             "04 06 FF FF 03 00 00 00"
             "02 02 00 02 00 0F 00 00"
             "05 05 00 05 02 00 00 00"
             "02 04 02 FF 00 0E 00 00"
             "02 05 02 FF 00 0E 00 00"
             "02 06 00 FF 00 0F 00 00"),
    BEGUN("00", "110000"),
    OFFERED(0, "FF", "110000"),
    STARTS(15, 0),
    RUNNING("00", "101110"),
    OFFERED(16909060, "FF", "101110"),
    STARTS(14, 16909060),
    RUNNING("00", "100001"),
    SETTLE_REFUSED("00", 11),
    OFFERED(4294967295u, "FF", "100001"),
    SETTLE_REFUSED("FB", 13), /* a refused settling starts nothing */
    STARTS(15, 4294967295u),
    FINISHED("00", "000000"),
    FINISHED_IN(3),

    STATION("a GOAL on an unknown variable"), /* GOAL 0=1: it is not reached, and offered again */
    COMPILED(GOAL_1, GOAL_1_TABLE),
    BEGUN("FF", "1"),
    OFFERED(0, "01", "1"),
    RUNNING("FF", "1"),
    OFFERED(0, "01", "1"),
    RUNNING("00", "1"),
    OFFERED(0, "01", "1"),
    FINISHED("01", "0"),
    FINISHED_IN(3),
    /* PAR(GOAL 0=1, GOAL 0=2, GOAL 1=1): 0 is contested, known or not, and 1 is no matter of 0 */
    COMPILED("04 02 00  05 01 01 01  03 00 00 00  00 00 01 00  00 00 02 00  00 01 01 00",
             "04 02 00"
             "05 04 FF FF 03 00 00 00"
             "01 02 00 FF 00 00 01 00"
             "01 03 00 FF 00 00 02 00"
             "01 04 00 FF 00 01 01 00"),
    BEGUN("FF FF", "1111"),
    NAMED(0, 0, "FE 01", "1111"),
    RUNNING("FF 01", "1110"),
    NAMED(0, 0, "FE FF", "1110"),
    RUNNING("02 FF", "1100"),
    OFFERED(0, "01 FF", "1100"),
    RUNNING("FF FF", "1100"),
    OFFERED(0, "01 FF", "1100"),
    FINISHED("01 FF", "0000"),
    OFFER_REFUSED(0, 0, 14), /* the record is allowed, with 1 unknown */
    SETTLE_REFUSED("FF FF", 14),
    FINISHED_IN(4),

    STATION("a WAIT on an unknown variable"),
    /* PAR(WAIT 0=1, WAIT 0 differs from 1): both stay, and a value ends one of them */
    COMPILED("03 01 00  05 03 03  02 00 00 00  01 00 01 00  02 00 01 00",
             "03 01 00"
             "05 03 FF FF 02 00 00 00"
             "03 02 00 FF 01 00 01 00"
             "03 03 00 FF 02 00 01 00"),
    BEGUN("00", "111"),
    OFFERED(0, "FF", "111"),
    RUNNING("FF", "111"),
    OFFERED(0, "FF", "111"),
    RUNNING("FF", "111"),
    OFFERED(0, "FF", "111"),
    RUNNING("00", "110"),
    OFFERED(0, "FF", "110"),
    RUNNING("FF", "110"),
    OFFERED(0, "FF", "110"),
    FINISHED("01", "000"),
    FINISHED_IN(5),
    BEGUN("FF", "111"),
    OFFERED(0, "FF", "111"),
    RUNNING("01", "101"),
    OFFERED(0, "FF", "101"),
    RUNNING("FF", "101"),
    OFFERED(0, "FF", "101"),
    FINISHED("FA", "000"),
    FINISHED_IN(3),

    STATION("a MAINTAIN over an unknown variable"),
    /* MAINTAIN(0=0, GOAL 1=1): it goes on, from the first offer or later, until 0 is known to be
     * another; then it ends, be 0 unknown again */
    COMPILED("02 02 00  06 01  01 00 00 00  00 01 01 00",
             "02 02 00  06 02 FF FF 01 00 00 00  01 02 00 FF 00 01 01 00"),
    BEGUN("FF 00", "11"),
    OFFERED(0, "FF 01", "11"),
    RUNNING("FF 00", "11"),
    OFFERED(0, "FF 01", "11"),
    RUNNING("00 00", "11"),
    OFFERED(0, "FF 01", "11"),
    RUNNING("FF 00", "11"),
    OFFERED(0, "FF 01", "11"),
    RUNNING("01 00", "11"),
    OFFERED(0, "FF FF", "10"),
    FINISHED("FF 00", "00"),
    FINISHED_IN(5),
    /* and ends with what it holds */
    BEGUN("FF FF", "11"),
    OFFERED(0, "FF 01", "11"),
    RUNNING("FF FF", "11"),
    OFFERED(0, "FF 01", "11"),
    FINISHED("FF 01", "00"),
    FINISHED_IN(2),
    /* MAINTAIN(0 differs from 0, GOAL 1=1) */
    COMPILED("02 02 00  06 01  02 00 00 00  00 01 01 00",
             "02 02 00  06 02 FF FF 02 00 00 00  01 02 00 FF 00 01 01 00"),
    BEGUN("FF 00", "11"),
    OFFERED(0, "FF 01", "11"),
    RUNNING("FF 00", "11"),
    OFFERED(0, "FF 01", "11"),
    RUNNING("00 00", "11"),
    OFFERED(0, "FF FF", "10"),
    FINISHED("FF 00", "00"),
    FINISHED_IN(3),

    STATION("a CHOICE over an unknown variable"),
    /* CHOICE(0=1; GOAL 1=1; GOAL 1=2): the second child, and so it stays when 0 is known to be 1 */
    COMPILED("03 02 00  07 01 01  01 00 01 00  00 01 01 00  00 01 02 00",
             "03 02 00"
             "07 03 FF FF 01 00 01 00"
             "01 02 00 FF 00 01 01 00"
             "01 03 00 FF 00 01 02 00"),
    BEGUN("01 00", "100"),
    OFFERED(0, "FF FF", "100"),
    RUNNING("FF 00", "101"),
    OFFERED(0, "FF 02", "101"),
    RUNNING("01 00", "101"),
    OFFERED(0, "FF 02", "101"),
    FINISHED("01 02", "000"),
    FINISHED_IN(3),
    /* REPEAT(CHOICE(0 differs from 1; START 0; START 1)): the second child too; by a value that
     * differs the first, and by 1 the second again */
    COMPILED("04 01 02  08 07 02 02  00 00 00 00  02 00 01 00  00 00 00 00  00 01 00 00",
             "04 01 02"
             "08 04 FF FF 00 00 00 00"
             "07 04 00 01 02 00 01 00"
             "02 03 01 FF 00 00 00 00"
             "02 04 01 FF 00 01 00 00"),
    BEGUN("00", "1100"),
    OFFERED(1, "FF", "1100"),
    RUNNING("FF", "1101"),
    OFFERED(2, "FF", "1101"),
    STARTS(1, 2), /* a START does not look at the estimate */
    RUNNING("FF", "1100"),
    OFFERED(3, "FF", "1100"),
    RUNNING("00", "1110"),
    OFFERED(4, "FF", "1110"),
    STARTS(0, 4),
    RUNNING("FF", "1100"),
    OFFERED(5, "FF", "1100"),
    RUNNING("01", "1101"),
    FINISHED_IN(0),

    STATION("an estimate with gaps"),
    /* PAR(WAIT 0=1, WAIT 1 differs from 1, WAIT 31=1), 32 variables, all unknown at first: each
     * looks at its own variable */
    COMPILED("04 20 00  05 03 03 03  03 00 00 00  01 00 01 00  02 01 01 00  01 1F 01 00",
             "04 20 00"
             "05 04 FF FF 03 00 00 00"
             "03 02 00 FF 01 00 01 00"
             "03 03 00 FF 02 01 01 00"
             "03 04 00 FF 01 1F 01 00"),
    BEGUN("FF" THIRTY_ONE("FF"), "1111"),
    OFFERED(0, "FF" THIRTY_ONE("FF"), "1111"),
    SETTLE_REFUSED(THIRTY_ONE("FF"), 13),
    SETTLE_REFUSED("FF" THIRTY_ONE("FF") "FF", 13),
    SETTLE_REFUSED("FB" THIRTY_ONE("FF"), 13),
    SETTLE_REFUSED(THIRTY_ONE("FF") "FE", 13),
    RUNNING("01" THIRTY_ONE("FF"), "1011"),
    OFFERED(0, "FF" THIRTY_ONE("FF"), "1011"),
    RUNNING(THIRTY_ONE("FF") "01", "1010"),
    OFFERED(0, "FF" THIRTY_ONE("FF"), "1010"),
    RUNNING("FF 01" THIRTY("00"), "1010"),
    OFFERED(0, "FF" THIRTY_ONE("FF"), "1010"),
    FINISHED("FF 00" THIRTY("FF"), "0000"),
    FINISHED_IN(4),

    STATION("the longest program"), /* a SEQ of 199 GOALs, a cycle for each */
    LONGEST_PROGRAM,
    FINISHED_IN(199),

    STATION("refusals of files"), /* 1 to 7, each over all parts, then 8 */
    FILE_REFUSED("", 0, 1),
    FILE_REFUSED("00 01", 0, 1),
    FILE_REFUSED("00 01 00", 0, 2),
    FILE_REFUSED("C9 20 10", 0, 2),
    FILE_REFUSED("C8 00 10", 0, 2),
    FILE_REFUSED("C8 21 10", 0, 2),
    FILE_REFUSED("C8 20 11", 0, 2),
    FILE_REFUSED("C8 20 10", 0, 3),
    FILE_REFUSED("01 01 00 01", 0, 3),
    FILE_REFUSED("01 01 00  01  00 00 01 00  00", 0, 3),
    FILE_REFUSED("01 01 00 09 00 00 00 00", 0, 4),
    FILE_REFUSED("01 01 00 00 00 00 00 00", 0, 4),
    FILE_REFUSED("02 01 00  01 09  00 01 00 00  00 00 00 00", 0, 4), /* and 5 before it, and 6 */
    FILE_REFUSED("01 01 00 01 00 01 00 00", 0, 5),
    FILE_REFUSED("02 01 00  01 01  00 00 00 00  00 01 00 00", 0, 5), /* and 6 */
    FILE_REFUSED("01 01 00  01  01 00 01 00", 0, 5), /* GOAL: b0 = 0 */
    FILE_REFUSED("01 01 01  02  01 00 00 00", 0, 5), /* START: b1 clock, others 0 */
    FILE_REFUSED("01 01 01  02  00 01 00 00", 0, 5),
    FILE_REFUSED("01 01 01  02  00 00 01 00", 0, 5),
    FILE_REFUSED("01 01 01  02  00 00 00 01", 0, 5),
    FILE_REFUSED("01 01 01  03  00 00 00 00", 0, 5), /* conditions: b0 is 1 to 4 */
    FILE_REFUSED("01 01 01  03  05 00 00 00", 0, 5),
    FILE_REFUSED("01 01 01  03  01 01 00 00", 0, 5),
    FILE_REFUSED("01 01 01  03  02 01 00 00", 0, 5),
    FILE_REFUSED("01 02 01  03  03 01 00 00", 0, 5),
    FILE_REFUSED("01 02 01  03  04 01 00 00", 0, 5),
    FILE_REFUSED("02 01 01  06 01  05 00 00 00  00 00 00 00", 0, 5), /* MAINTAIN and CHOICE too */
    FILE_REFUSED("03 01 01  07 01 01  05 00 00 00  00 00 00 00  00 00 00 00", 0, 5),
    FILE_REFUSED("01 01 00  04  00 00 00 00", 0, 5), /* SEQ and PAR: at least 1, others 0 */
    FILE_REFUSED("01 01 00  05  00 00 00 00", 0, 5),
    FILE_REFUSED("02 01 00  04 01  01 01 00 00  00 00 00 00", 0, 5),
    FILE_REFUSED("02 01 00  04 01  01 00 01 00  00 00 00 00", 0, 5),
    FILE_REFUSED("02 01 00  05 01  01 00 00 01  00 00 00 00", 0, 5),
    FILE_REFUSED("02 01 00  08 01  01 00 00 00  00 00 00 00", 0, 5), /* REPEAT: all 0 */
    FILE_REFUSED("02 01 00  08 01  00 01 00 00  00 00 00 00", 0, 5),
    FILE_REFUSED("02 01 00  08 01  00 00 01 00  00 00 00 00", 0, 5),
    FILE_REFUSED("02 01 00  08 01  00 00 00 01  00 00 00 00", 0, 5),
    FILE_REFUSED("01 01 00 08 00 00 00 00", 0, 6),
    FILE_REFUSED("01 01 00  04  02 00 00 00", 0, 6), /* two children missing */
    FILE_REFUSED("02 01 00  01 01  00 00 00 00  00 00 00 00", 0, 6), /* two trees */
    FILE_REFUSED("02 01 00  01 08  00 00 00 00  00 00 00 00", 0, 6), /* a child in its place before */
    FILE_REFUSED("03 01 00  04 01 01  01 00 00 00  00 00 00 00  00 00 00 00", 0, 6),
    FILE_REFUSED("02 01 00  07 01  01 00 00 00  00 00 00 00", 0, 6), /* one child for a CHOICE */
    FILE_REFUSED("12 01 00" KINDS_15 "08 08 08" OPERANDS_15 OPERANDS_3, 0, 6), /* 18 levels */
    FILE_REFUSED(REPEATS_16, 0, 7),
    FILE_REFUSED(GOAL_1, 10, 8),
    FILE_REFUSED(GOAL_1, 0, 8),

    STATION("refusals of tables"), /* 9, then 8 */
    TABLE_REFUSED("", 0, 9),
    TABLE_REFUSED("01 01 00", 0, 9),
    TABLE_REFUSED(GOAL_1_TABLE "00", GURVOKE_MAX_FILE, 9),
    TABLE_REFUSED(GOAL_1_TABLE, 7, 8),
    TABLE_REFUSED("01 01 01  01 01 FF FF 00 01 01 00", 0, 9), /* an operand */
    TABLE_REFUSED("01 01 01  01 02 FF FF 00 00 01 00", 0, 9), /* the root's links */
    TABLE_REFUSED("01 01 01  01 01 00 FF 00 00 01 00", 0, 9),
    TABLE_REFUSED("01 01 01  01 01 FF 00 00 00 01 00", 0, 9),
    TABLE_REFUSED("02 01 01  08 02 FF FF 00 00 00 00  01 01 00 01 00 00 01 00", 0, 9),
    TABLE_REFUSED("02 01 01  08 02 FF FF 00 00 00 00  01 02 FF 01 00 00 01 00", 0, 9),
    TABLE_REFUSED("02 01 01  08 02 FF FF 00 00 00 00  01 02 00 FF 00 00 01 00", 0, 9),
    /* no next: a child of a PAR, a MAINTAIN, a CHOICE, and the last of a SEQ */
    TABLE_REFUSED("03 01 01  05 03 FF FF 02 00 00 00"
                  "01 02 00 02 00 00 01 00  01 03 00 FF 00 00 02 00",
                  0, 9),
    TABLE_REFUSED("02 01 01  06 02 FF FF 01 00 00 00  01 02 00 01 00 00 01 00", 0, 9),
    TABLE_REFUSED("03 01 01  07 03 FF FF 01 00 00 00"
                  "01 02 00 02 00 00 01 00  01 03 00 FF 00 00 02 00",
                  0, 9),
    TABLE_REFUSED("02 01 01  04 02 FF FF 01 00 00 00  01 02 00 02 00 00 01 00", 0, 9),
    TABLE_REFUSED("01 21 01  01 01 FF FF 00 00 01 00", 0, 9), /* V and K outside their ranges */
    TABLE_REFUSED("01 01 11  01 01 FF FF 00 00 01 00", 0, 9),
    TABLE_REFUSED("11 01 01" /* 16 REPEATs above a GOAL */
                  "08 11 FF FF 00 00 00 00"
                  "08 11 00 01 00 00 00 00"
                  "08 11 01 02 00 00 00 00"
                  "08 11 02 03 00 00 00 00"
                  "08 11 03 04 00 00 00 00"
                  "08 11 04 05 00 00 00 00"
                  "08 11 05 06 00 00 00 00"
                  "08 11 06 07 00 00 00 00"
                  "08 11 07 08 00 00 00 00"
                  "08 11 08 09 00 00 00 00"
                  "08 11 09 0A 00 00 00 00"
                  "08 11 0A 0B 00 00 00 00"
                  "08 11 0B 0C 00 00 00 00"
                  "08 11 0C 0D 00 00 00 00"
                  "08 11 0D 0E 00 00 00 00"
                  "08 11 0E 0F 00 00 00 00"
                  "01 11 0F 10 00 00 01 00",
                  GURVOKE_MAX_FILE, 9),
    /* Every call of a run looks at the table first. */
    COMPILED(WAITS, WAITS_TABLE),
    BEGUN("00", "110"),
    TABLE_BYTE(GURVOKE_ROW_PLACE(1) + GURVOKE_NEXT_PLACE, 255),
    RECORD_BYTE(GURVOKE_PHASE_PLACE, 7),
    BEGIN_REFUSED("FB", 0, 9),
    OFFER_REFUSED(0, 0, 9),
    SETTLE_REFUSED("FB", 9),

    STATION("refusals of records"), /* 10; after SEQ and START are marked, the clock unstarted */
    COMPILED(WAITS, WAITS_TABLE),
    BEGUN("00", "110"),
    RECORD_LENT(GURVOKE_RECORD - 1),
    OFFER_REFUSED(0, 0, 10),
    SETTLE_REFUSED("FB", 10),
    RECORD_LENT(GURVOKE_RECORD),
    NOT_ALLOWED(GURVOKE_PHASE_PLACE, 7, 0),
    NOT_ALLOWED(GURVOKE_PHASE_PLACE, 3, 0),
    NOT_ALLOWED(GURVOKE_PHASE_PLACE, 2, 0), /* in phase 2 no mark is set */
    NOT_ALLOWED(GURVOKE_ESTIMATE_PLACE, 251, 0),
    NOT_ALLOWED(GURVOKE_ESTIMATE_PLACE, 252, 0),
    NOT_ALLOWED(GURVOKE_ESTIMATE_PLACE, 253, 0),
    NOT_ALLOWED(GURVOKE_ESTIMATE_PLACE, 254, 0),
    NOT_ALLOWED(GURVOKE_ESTIMATE_PLACE + 1, 1, 0), /* beyond V, K and N */
    NOT_ALLOWED(GURVOKE_ESTIMATE_PLACE + 1, 255, 0), /* unknown is not 0 */
    NOT_ALLOWED(GURVOKE_ESTIMATE_PLACE + 31, 255, 0),
    NOT_ALLOWED(GURVOKE_STARTED_PLACE + 1, 1, 0),
    NOT_ALLOWED(GURVOKE_START_PLACE(1), 1, 0),
    NOT_ALLOWED(MARK(3), 1, 0),
    NOT_ALLOWED(GURVOKE_RECORD - 1, 1, 0),
    NOT_ALLOWED(GURVOKE_STARTED_PLACE, 2, 0),
    NOT_ALLOWED(GURVOKE_START_PLACE(0) + 3, 1, 0), /* an unstarted clock's time */
    NOT_ALLOWED(MARK(1), 2, 1),
    NOT_ALLOWED(MARK(0), 0, 1), /* the root */
    NOT_ALLOWED(MARK(1), 0, 1), /* no child of a SEQ, and two */
    NOT_ALLOWED(MARK(2), 1, 0),
    RECORD_BYTE(GURVOKE_ESTIMATE_PLACE, 255), /* allowed */
    OFFERED(4, "FF", "110"),
    NOT_ALLOWED(MARK(1), 0, 1), /* no child of a SEQ in phase 1 either */
    STARTS(0, 4),
    RUNNING("00", "101"),
    NOT_ALLOWED(GURVOKE_START_PLACE(0), 5, 4), /* a start after the last time */
    /* MAINTAIN(0=0, REPEAT(PAR(CHOICE(0=0; GOAL 0=1; GOAL 0=2), GOAL 0=3))) */
    COMPILED("07 01 00  06 08 05 07 01 01 01"
             "01 00 00 00  00 00 00 00  02 00 00 00  01 00 00 00"
             "00 00 01 00  00 00 02 00  00 00 03 00",
             "07 01 00"
             "06 07 FF FF 01 00 00 00"
             "08 07 00 FF 00 00 00 00"
             "05 07 01 02 02 00 00 00"
             "07 06 02 FF 01 00 00 00"
             "01 05 03 FF 00 00 01 00"
             "01 06 03 FF 00 00 02 00"
             "01 07 02 FF 00 00 03 00"),
    BEGUN("00", "1111001"),
    RECORD_BYTE(MARK(4), 1), /* allowed */
    NOT_ALLOWED(MARK(5), 1, 0), /* two children of a CHOICE */
    NOT_ALLOWED(MARK(3), 0, 1), /* a mark inside an unmarked part */
    RECORD_BYTE(MARK(3), 0),
    RECORD_BYTE(MARK(4), 0),
    NOT_ALLOWED(MARK(6), 0, 1), /* no child of a PAR */
    RECORD_BYTE(MARK(6), 0),
    NOT_ALLOWED(MARK(2), 0, 0), /* no child of a REPEAT */
    NOT_ALLOWED(GURVOKE_PHASE_PLACE, 1, 0), /* in phase 1 either */
    NOT_ALLOWED(MARK(1), 0, 0), /* no child of a MAINTAIN in phase 0, but in phase 1 */
    RECORD_BYTE(GURVOKE_PHASE_PLACE, 1),
    FINISHED("00", "0000000"),

    STATION("refusals of a run"), /* of two that apply, the first in the order of its call */
    COMPILED(GOAL_1, GOAL_1_TABLE),
    BEGIN_REFUSED("FB", 316, 13),
    BEGIN_REFUSED("FC", 316, 13),
    BEGIN_REFUSED("FD", 316, 13),
    BEGIN_REFUSED("FE", 316, 13),
    BEGIN_REFUSED("", 316, 13),
    BEGIN_REFUSED("00 00", 316, 13),
    BEGIN_REFUSED("FF FF", 316, 13),
    BEGIN_REFUSED("00", 316, 8),
    BEGIN_REFUSED("FF", 316, 8),
    BEGUN("00", "1"),
    SETTLE_REFUSED("FB", 11),
    OFFERED(5, "01", "1"),
    SETTLE_REFUSED("FB", 13),
    SETTLE_REFUSED("FC", 13),
    SETTLE_REFUSED("FD", 13),
    SETTLE_REFUSED("FE", 13),
    SETTLE_REFUSED("", 13),
    SETTLE_REFUSED("00 00", 13),
    SETTLE_REFUSED("FF FF", 13),
    OFFER_REFUSED(4, 0, 11),
    RUNNING("00", "1"),
    SETTLE_REFUSED("00", 11),
    OFFER_REFUSED(4, 0, 12),
    OFFER_REFUSED(5, 0, 8),
    OFFERED(10, "01", "1"),
    RUNNING("00", "1"),
    OFFER_REFUSED(9, 1, 12),
    OFFERED(10, "01", "1"),
    FINISHED("01", "0"),
    OFFER_REFUSED(9, 0, 14),
    SETTLE_REFUSED("FB", 14),
    FINISHED_IN(3),
};

enum { STEPS = sizeof steps / sizeof steps[0] };

/* How much longer the longer buffers are; and the byte that fills them before a station. */
enum { FURTHER = 5, UNTOUCHED = 0xA5 };

/* The buffers that are lent to the calls, and what must stand in them. */
struct buffers {
    uint8_t input[GURVOKE_MAX_FILE]; /* a file or an estimate, which a call only reads */
    uint8_t file[GURVOKE_MAX_FILE + FURTHER];
    uint8_t table[GURVOKE_MAX_TABLE + FURTHER];
    uint8_t record[GURVOKE_RECORD + FURTHER];
    uint8_t goals[GURVOKE_MAX_VARIABLES + FURTHER];
};

static struct buffers lent, right;
static size_t further; /* 0, or FURTHER */
static size_t table_len;
static size_t record_len;
static uint32_t cycles; /* settlings that were not refused, */
static uint32_t finishing; /* and how many there were when the phase was first 2, or 0 */
static const char *name; /* of the station */
static int call; /* counted in each station */

static unsigned digit_of(char sign)
{
    return sign >= 'A' ? (unsigned)(sign - 'A') + 10 : (unsigned)(sign - '0');
}

static size_t read_bytes(const char *text, uint8_t *bytes)
{
    size_t count = 0;
    for (; *text != '\0'; text++) {
        if (*text == ' ')
            continue;
        bytes[count++] = (uint8_t)(16 * digit_of(text[0]) + digit_of(text[1]));
        text++;
    }
    return count;
}

static void read_marks(const char *text, uint8_t *marks)
{
    for (size_t part = 0; text[part] != '\0'; part++)
        marks[part] = (uint8_t)digit_of(text[part]);
}

static void write_time(uint8_t *bytes, uint32_t time)
{
    for (int byte = 0; byte < GURVOKE_TIME; byte++)
        bytes[byte] = (uint8_t)(time >> 8 * byte);
}

/* The comparisons: each says the first difference. */
static bool is_same(const char *what, const uint8_t *is, const uint8_t *must_be, size_t length)
{
    for (size_t place = 0; place < length; place++) {
        if (is[place] != must_be[place]) {
            printf("%s: call %d: byte %lu of the %s is %02X and not %02X\n", name, call,
                   (unsigned long)place, what, is[place], must_be[place]);
            return false;
        }
    }
    return true;
}

static bool are_right(void)
{
    return is_same("input", lent.input, right.input, sizeof lent.input) &&
           is_same("file", lent.file, right.file, sizeof lent.file) &&
           is_same("table", lent.table, right.table, sizeof lent.table) &&
           is_same("goals", lent.goals, right.goals, sizeof lent.goals) &&
           is_same("record", lent.record, right.record, sizeof lent.record);
}

static bool is_answer(uint32_t is, uint32_t must_be)
{
    if (is != must_be)
        printf("%s: call %d: the answer is %lu and not %lu\n", name, call, (unsigned long)is,
               (unsigned long)must_be);
    return is == must_be;
}

/* The bytes of a file or an estimate, for the call to read: how many. */
static size_t lend_input(const char *text)
{
    size_t length = read_bytes(text, right.input);
    memcpy(lent.input, right.input, length);
    return length;
}

/* The calls. Each first says what must stand in the buffers afterwards. */
static bool compile(const struct step *step)
{
    memset(&lent, UNTOUCHED, sizeof lent);
    memset(&right, UNTOUCHED, sizeof right);
    size_t file_len = lend_input(step->bytes);
    table_len = read_bytes(step->after, right.table);
    record_len = GURVOKE_RECORD + further;
    size_t room = step->answer == 0 ? table_len + further : step->value;
    uint32_t answer = gurvoke_compile(lent.input, file_len, lent.table, room);
    if (!is_answer(answer, step->answer) || !are_right())
        return false;
    if (step->answer != 0)
        return true; /* refused, as it must be: there is no table to give back */
    memcpy(right.file, right.input, file_len);
    answer = gurvoke_decompile(lent.table, table_len, lent.file, file_len + further);
    return is_answer(answer, 0) && are_right();
}

static bool decompile(const struct step *step)
{
    memset(&lent, UNTOUCHED, sizeof lent);
    table_len = read_bytes(step->bytes, lent.table);
    right = lent;
    uint32_t answer = gurvoke_decompile(lent.table, table_len, lent.file, step->value);
    return is_answer(answer, step->answer) && are_right();
}

static bool begin(const struct step *step)
{
    size_t estimate_len = lend_input(step->bytes);
    size_t room = step->value;
    if (step->answer == 0) {
        room = record_len;
        cycles = finishing = 0;
        memset(right.record, 0, GURVOKE_RECORD);
        memcpy(right.record + GURVOKE_ESTIMATE_PLACE, right.input, estimate_len);
        read_marks(step->after, right.record + GURVOKE_MARKS_PLACE);
    }
    uint32_t answer =
        gurvoke_begin(lent.table, table_len, lent.input, estimate_len, lent.record, room);
    return is_answer(answer, step->answer) && are_right();
}

static bool offer(const struct step *step)
{
    size_t room = step->value;
    if (step->answer >= GURVOKE_ANSWERED) {
        size_t variables = read_bytes(step->bytes, right.goals);
        room = variables + further;
        /* Further bytes are no goals, even if they look contested. */
        memset(lent.goals + variables, GURVOKE_CONTESTED, further);
        memset(right.goals + variables, GURVOKE_CONTESTED, further);
        right.record[GURVOKE_PHASE_PLACE] = GURVOKE_PHASE_OFFERED;
        write_time(right.record + GURVOKE_TIME_PLACE, step->number);
        read_marks(step->after, right.record + GURVOKE_MARKS_PLACE);
    }
    uint32_t answer = gurvoke_offer(lent.table, table_len, lent.record, record_len, step->number,
                                    lent.goals, room);
    return is_answer(answer, step->answer) && are_right();
}

static bool settle(const struct step *step)
{
    size_t estimate_len = lend_input(step->bytes);
    if (step->answer >= GURVOKE_ANSWERED) {
        bool ends = step->answer == GURVOKE_FINISHED;
        right.record[GURVOKE_PHASE_PLACE] = ends ? GURVOKE_PHASE_FINISHED : GURVOKE_PHASE_WAITING;
        memcpy(right.record + GURVOKE_ESTIMATE_PLACE, right.input, estimate_len);
        read_marks(step->after, right.record + GURVOKE_MARKS_PLACE);
    }
    uint32_t answer =
        gurvoke_settle(lent.table, table_len, lent.record, record_len, lent.input, estimate_len);
    cycles += answer >= GURVOKE_ANSWERED;
    if (finishing == 0 && lent.record[GURVOKE_PHASE_PLACE] == GURVOKE_PHASE_FINISHED)
        finishing = cycles;
    return is_answer(answer, step->answer) && are_right();
}

static bool take(const struct step *step);

/* The longest program: 199 GOALs that the last of 32 variables is 1, in a SEQ. The texts of its file
 * and of its table, and of the marks where the SEQ is at part p. */
enum { LAST_PART = GURVOKE_MAX_PARTS - 1 };

static char file_text[2 * GURVOKE_MAX_FILE + 1];
static char table_text[2 * GURVOKE_MAX_TABLE + 1];
static char marks_text[GURVOKE_MAX_PARTS + 1];

static void write_longest(void)
{
    char *file = file_text + sprintf(file_text, "C8201004");
    char *table = table_text + sprintf(table_text, "C8201004C8FFFFC7000000");
    for (int part = 1; part <= LAST_PART; part++) {
        unsigned end = (unsigned)part + 1;
        file += sprintf(file, "01");
        table += sprintf(table, "01%02X00%02X001F0100", end,
                         part < LAST_PART ? end : (unsigned)GURVOKE_NO_PART);
    }
    file += sprintf(file, "C7000000");
    for (int part = 1; part <= LAST_PART; part++)
        file += sprintf(file, "001F0100");
}

static const char *at_part(int part)
{
    memset(marks_text, '0', GURVOKE_MAX_PARTS);
    if (part <= LAST_PART)
        marks_text[0] = marks_text[part] = '1';
    return marks_text;
}

static bool run_longest(void)
{
    write_longest();
    const struct step compiled = COMPILED(file_text, table_text);
    const struct step begun = BEGUN(THIRTY_ONE("00") "00", at_part(1));
    if (!take(&compiled) || !take(&begun))
        return false;
    for (int part = 1; part <= LAST_PART; part++) {
        const struct step offered = OFFERED((uint32_t)part, THIRTY_ONE("FF") "01", at_part(part));
        if (!take(&offered))
            return false;
        const struct step running = RUNNING(THIRTY_ONE("00") "01", at_part(part + 1));
        const struct step finished = FINISHED(THIRTY_ONE("00") "01", at_part(part + 1));
        if (!take(part < LAST_PART ? &running : &finished))
            return false;
    }
    return true;
}

/* A step, and whether what it says is so. */
static bool take(const struct step *step)
{
    call += step->what == COMPILE || step->what == DECOMPILE || step->what == BEGIN ||
            step->what == OFFER || step->what == SETTLE;
    switch (step->what) {
    case COMPILE:
        return compile(step);
    case DECOMPILE:
        return decompile(step);
    case BEGIN:
        return begin(step);
    case OFFER:
        return offer(step);
    case SETTLE:
        return settle(step);
    case CLOCK:
        right.record[GURVOKE_STARTED_PLACE + step->number] = GURVOKE_STARTED;
        write_time(right.record + GURVOKE_START_PLACE(step->number), (uint32_t)step->value);
        return true;
    case CYCLES:
        if (finishing != step->number)
            printf("%s: it finishes in cycle %lu and not %lu\n", name, (unsigned long)finishing,
                   (unsigned long)step->number);
        return finishing == step->number;
    case IN_TABLE:
        lent.table[step->number] = right.table[step->number] = (uint8_t)step->value;
        return true;
    case IN_RECORD:
        lent.record[step->number] = right.record[step->number] = (uint8_t)step->value;
        return true;
    case LEND:
        record_len = step->value;
        return true;
    case LONGEST:
        return run_longest();
    default:
        return false;
    }
}

/* A station's steps up to the next name, or to the first that goes wrong. */
static bool run(const struct step *station, size_t further_bytes)
{
    further = further_bytes;
    name = station->bytes;
    call = 0;
    const struct step *step = station + 1;
    while (step < steps + STEPS && step->what != NAME) {
        if (!take(step++))
            return false;
    }
    return true;
}

int main(void)
{
    int status = 0;
    for (const struct step *step = steps; step < steps + STEPS; step++) {
        if (step->what != NAME)
            continue;
        if (run(step, 0) && run(step, FURTHER))
            printf("%s: as the papers say\n", name);
        else
            status = 1;
    }
    return status;
}
