/*
 * Gurvoke: the lander sequence executive.
 *
 * A program file holds a control program as document 01 lays down. A program may be typed as text
 * too, as document 02 lays down; its program file comes out. Compiling a file gives its location
 * table, and decompiling the table gives the file back. A run of the table keeps its state in a
 * run record and proceeds in cycles: an offer (a time goes in, goals come out), then a settling (the
 * new estimate goes in). examples/lander.c is a complete run, examples/board.c a board's main loop,
 * and examples/stations.c tries any library with this header.
 *
 * Buffers
 *   A buffer passes as a pointer to its first byte and then its length in bytes. It may stand at
 *   any address: nothing has to be aligned. A buffer of length 0 may have any pointer, NULL too. No
 *   call reads or writes a byte beyond the lengths given, and no input (const) is ever written.
 *   The buffers of one call must not overlap. So the estimate of a settling must not be the one
 *   inside the record: copy it out first.
 *
 * What is kept
 *   Nothing, between calls: all that a run is stands in its record, which may be moved, stored and
 *   read back. No call keeps a pointer, allocates, or has memory of its own but the stack, of which
 *   it takes less than 2 KiB on x86-64 (docs/PERFORMANCE.md); gurvoke_text alone may take far more, as
 *   stands there. The two functions that the library needs from elsewhere are memset and memcpy.
 *
 * A record and its table
 *   A record belongs to the table with which its run began, and every later call of the run must have
 *   the same table. Nothing in a record's bytes names its table. A record that comes with another
 *   table is the caller's mistake. It is noticed only where the record is not allowed with that
 *   table (GURVOKE_RECORD_NOT_ALLOWED); elsewhere the call goes on with what the marks mean there.
 *
 * Processors
 *   The archive that `rt lib --cpu=x86-64` writes in crates/gurvoke is for x86-64: ELF objects with
 *   the System V calling convention, and no instructions beyond those that every x86-64 processor
 *   has. Without the flag it needs x86-64-v2. This header, the bytes of files, tables and records,
 *   and the answers are the same on any processor.
 *
 * Threads and interrupts
 *   Calls may run at the same time, in threads or in interrupts, if no buffer that one of them
 *   writes is in use by another. So several runs may share one table.
 *
 * Answers
 *   An answer below GURVOKE_ANSWERED is 0 (done: text, compile, decompile, begin) or the number of
 *   a refusal. A refused call changes no byte of any buffer. Where several refusals apply, the
 *   order stands at each function. Buffers may hold any bytes: those that are no text, file, table,
 *   record or estimate are refused.
 */
#ifndef GURVOKE_H
#define GURVOKE_H

#include <stddef.h>
#include <stdint.h>

#ifdef __cplusplus
extern "C" {
#endif

/*
 * The version of this interface. The major number grows when something that was there changes its
 * meaning or goes: a function, a number, or the layout of files, tables or records, so that those
 * stored before have to be made anew. The minor number grows when something is added, or promised
 * more closely, so that callers of the older version need not change; it begins at 0 with each major
 * number.
 *
 * 1.1  An offer names the lowest-numbered contested variable; in 1.0 it could be any of them.
 * 2.0  Every marked START sets its clock to the cycle's time; in 1.1 a started clock kept its start.
 *      The layout of files, tables and records is that of 1.1.
 * 2.1  Estimate byte 255, GURVOKE_UNKNOWN_VALUE, says that the variable is unknown; in 2.0 it was
 *      refused with 13. Callers of 2.0 need not change, unless they count on that refusal. The layout
 *      of files, tables and records is that of 2.0. A record may hold GURVOKE_UNKNOWN_VALUE in its
 *      estimate; a library of 2.0 refuses such a record with 10.
 * 2.2  Programs typed as text: gurvoke_text, GURVOKE_MAX_TEXT and GURVOKE_NOT_A_TEXT are new. All else
 *      is as in 2.1.
 */
#define GURVOKE_VERSION_MAJOR 2
#define GURVOKE_VERSION_MINOR 2

/*
 * The most parts, variables and clocks of a program, the depth of its deepest part (the root has
 * depth 1), and the largest value of a variable.
 */
#define GURVOKE_MAX_PARTS 200
#define GURVOKE_MAX_VARIABLES 32
#define GURVOKE_MAX_CLOCKS 16
#define GURVOKE_MAX_DEPTH 16
#define GURVOKE_MAX_VALUE 250

/*
 * Stands in an estimate in place of a value: the sensor has nothing to say, so the variable is
 * unknown. In a goal byte GURVOKE_NO_GOAL says that there is no goal. These are two things with two
 * names, and no code should rely on their numbers being the same: a goal byte that is no value must
 * not be copied into an estimate.
 */
#define GURVOKE_UNKNOWN_VALUE 255

/*
 * How many bytes it takes to hold a number of parts or a part's number, a kind, a number of
 * variables or of clocks, an operand, and a time. Numbers of several bytes have their low byte first.
 */
#define GURVOKE_NUMBER 1
#define GURVOKE_KIND 1
#define GURVOKE_COUNT 1
#define GURVOKE_OPERAND 4
#define GURVOKE_TIME 4

/*
 * Every file and every table begins with its sizes: the number of parts, and at these places the
 * numbers of variables and of clocks. GURVOKE_HEADER is the length of the three.
 */
#define GURVOKE_VARIABLES_PLACE (GURVOKE_NUMBER)
#define GURVOKE_CLOCKS_PLACE (GURVOKE_VARIABLES_PLACE + GURVOKE_COUNT)
#define GURVOKE_HEADER (GURVOKE_CLOCKS_PLACE + GURVOKE_COUNT)

/*
 * A row of a table: the kind, and at these places the part's end (one past its last descendant), its
 * parent, its next and its operand. GURVOKE_ROW is the length of a row. GURVOKE_NO_PART stands for
 * no parent or no next.
 */
#define GURVOKE_END_PLACE (GURVOKE_KIND)
#define GURVOKE_PARENT_PLACE (GURVOKE_END_PLACE + GURVOKE_NUMBER)
#define GURVOKE_NEXT_PLACE (GURVOKE_PARENT_PLACE + GURVOKE_NUMBER)
#define GURVOKE_OPERAND_PLACE (GURVOKE_NEXT_PLACE + GURVOKE_NUMBER)
#define GURVOKE_ROW (GURVOKE_OPERAND_PLACE + GURVOKE_OPERAND)
#define GURVOKE_NO_PART 255

/* The longest text, the longest program file and the longest location table, in bytes. */
#define GURVOKE_MAX_TEXT 16384
#define GURVOKE_MAX_FILE \
    (GURVOKE_HEADER + (GURVOKE_KIND + GURVOKE_OPERAND) * GURVOKE_MAX_PARTS)
#define GURVOKE_MAX_TABLE (GURVOKE_HEADER + GURVOKE_ROW * GURVOKE_MAX_PARTS)

/*
 * The lengths of the file and of the table of a program with so many parts, and where the row of a
 * part begins in a table. The number of parts is the first byte of a file and of a table.
 */
#define GURVOKE_FILE_LENGTH(parts) \
    (GURVOKE_HEADER + (GURVOKE_KIND + GURVOKE_OPERAND) * (size_t)(parts))
#define GURVOKE_TABLE_LENGTH(parts) (GURVOKE_HEADER + GURVOKE_ROW * (size_t)(parts))
#define GURVOKE_ROW_PLACE(part) GURVOKE_TABLE_LENGTH(part)

/*
 * A run record: the phase, the last time, the estimate (a byte for each variable: a value up to
 * GURVOKE_MAX_VALUE, or GURVOKE_UNKNOWN_VALUE), which clocks are started (a byte for each), when they
 * were last started (a time for each), and the marks (a byte for each part), at these places.
 * GURVOKE_RECORD is its length in bytes. It has room for the most variables, clocks and parts; what a
 * program does not have is 0, in the estimate too.
 */
#define GURVOKE_PHASE_PLACE 0
#define GURVOKE_TIME_PLACE (GURVOKE_PHASE_PLACE + 1)
#define GURVOKE_ESTIMATE_PLACE (GURVOKE_TIME_PLACE + GURVOKE_TIME)
#define GURVOKE_STARTED_PLACE (GURVOKE_ESTIMATE_PLACE + GURVOKE_MAX_VARIABLES)
#define GURVOKE_STARTS_PLACE (GURVOKE_STARTED_PLACE + GURVOKE_MAX_CLOCKS)
#define GURVOKE_MARKS_PLACE (GURVOKE_STARTS_PLACE + GURVOKE_TIME * GURVOKE_MAX_CLOCKS)
#define GURVOKE_RECORD (GURVOKE_MARKS_PLACE + GURVOKE_MAX_PARTS)

/* Where the start time of a clock stands in a record. */
#define GURVOKE_START_PLACE(clock) (GURVOKE_STARTS_PLACE + GURVOKE_TIME * (size_t)(clock))

/* The bytes of a part that is not marked, of one that is, and of a clock that is started. */
#define GURVOKE_UNMARKED 0
#define GURVOKE_MARKED 1
#define GURVOKE_STARTED 1

/* The phases: the run waits for an offer, goals are offered and it waits for a settling, finished. */
#define GURVOKE_PHASE_WAITING 0
#define GURVOKE_PHASE_OFFERED 1
#define GURVOKE_PHASE_FINISHED 2

/*
 * The kinds of parts. Where a variable is unknown (GURVOKE_UNKNOWN_VALUE),
 *
 *   a GOAL that names it is not reached, and goes on being offered;
 *   a START does not look at the estimate, and starts its clock;
 *   a WAIT on it stays;
 *   a MAINTAIN over it goes on;
 *   a deciding CHOICE over it takes its second child;
 *   SEQ, PAR and REPEAT do not look at the estimate.
 */
#define GURVOKE_GOAL 1
#define GURVOKE_START 2
#define GURVOKE_WAIT 3
#define GURVOKE_SEQ 4
#define GURVOKE_PAR 5
#define GURVOKE_MAINTAIN 6
#define GURVOKE_CHOICE 7
#define GURVOKE_REPEAT 8

/*
 * The tests of a condition: the variable equals the value, or differs from it; the clock reads at
 * least the value, or below it. Over a variable that is unknown a condition is open, neither
 * satisfied nor violated, with GURVOKE_DIFFERS too; so it is over a clock that is not started.
 */
#define GURVOKE_EQUALS 1
#define GURVOKE_DIFFERS 2
#define GURVOKE_AT_LEAST 3
#define GURVOKE_BELOW 4

/* The refusals. */
#define GURVOKE_FILE_TOO_SHORT 1 /* file under GURVOKE_HEADER bytes */
#define GURVOKE_SIZE_OUT_OF_RANGE 2 /* no part, no variable, or more than the most of something */
#define GURVOKE_WRONG_LENGTH 3 /* length of the file not GURVOKE_FILE_LENGTH(parts) */
#define GURVOKE_UNKNOWN_KIND 4 /* a kind that is none of those above */
#define GURVOKE_OPERAND_NOT_ALLOWED 5 /* an operand that its kind does not allow */
#define GURVOKE_NOT_ONE_TREE 6 /* the arrays do not form exactly one tree */
#define GURVOKE_TOO_DEEP 7 /* depth above GURVOKE_MAX_DEPTH */
#define GURVOKE_BUFFER_TOO_SHORT 8 /* output buffer too short */
#define GURVOKE_NOT_A_TABLE 9 /* bytes not the table of any file */
#define GURVOKE_RECORD_NOT_ALLOWED 10 /* record not allowed, or under GURVOKE_RECORD bytes */
#define GURVOKE_WRONG_PHASE 11 /* settling before an offer, or a second offer before the settling */
#define GURVOKE_TIME_BEFORE_LAST 12 /* time before the last time */
#define GURVOKE_ESTIMATE_NOT_ALLOWED 13 /* not a byte for each variable, or one that is above
                                           GURVOKE_MAX_VALUE and not GURVOKE_UNKNOWN_VALUE */
#define GURVOKE_RUN_FINISHED 14 /* the run is finished */
#define GURVOKE_NOTHING_AT_WORK 15 /* after settling, root not ended, yet no leaf or deciding CHOICE
                                      marked (no such record is known) */
#define GURVOKE_NOT_A_TEXT 16 /* text outside the grammar, or above GURVOKE_MAX_TEXT bytes */

/*
 * Answers from here on are no refusals: of an offer GURVOKE_ANSWERED + the variable that it names, the
 * lowest-numbered contested one, or + GURVOKE_NONE where none is contested; of a settling one of the
 * next two.
 */
#define GURVOKE_ANSWERED 256
#define GURVOKE_RUNNING (GURVOKE_ANSWERED)
#define GURVOKE_FINISHED (GURVOKE_ANSWERED + 1)
#define GURVOKE_NONE 255

/* Whether the answer of any call is a refusal. */
#define GURVOKE_IS_REFUSAL(answer) ((uint32_t)(answer) - 1u < GURVOKE_ANSWERED - 1u)

/*
 * The variable that the answer of an accepted offer names: the lowest-numbered contested one, whatever
 * order the GOALs stand in, so that every board lights the same lamp on its deck panel; GURVOKE_NONE
 * where none is contested. And whether none is.
 */
#define GURVOKE_NAMED(answer) ((uint32_t)(answer) - GURVOKE_ANSWERED)
#define GURVOKE_NAMES_NONE(answer) (GURVOKE_NAMED(answer) == GURVOKE_NONE)

/*
 * A goal byte that is no value: no goal for that variable, or two goals that differ. Neither says
 * whether the variable is unknown (GURVOKE_UNKNOWN_VALUE).
 */
#define GURVOKE_NO_GOAL 255
#define GURVOKE_CONTESTED 254

/*
 * Assembles a program typed as text (docs/TEXT.md): writes its program file,
 * GURVOKE_FILE_LENGTH(parts) bytes, to the start of `file`. Further bytes of `file` stay as they are.
 * The number of parts is then the first byte of `file`; a buffer of GURVOKE_MAX_FILE bytes is long
 * enough for any text. The text has no byte that ends it: its length counts. Answers 0 or a refusal:
 * 16 first, whatever else is wrong, then 2, 5, 7 and 8, as for files.
 *
 * This call is for the desk, not for a small board: it calls itself for what stands inside brackets
 * and after words, so that the stack that it takes depends on the text, a refused one too. On x86-64
 * that is under 64 KiB for any run of brackets, but 1.7 MB for the worst text known, with 2,340 times
 * `repeat(` after its sizes and colon. Call it from a thread with 2 MiB of stack or more, and hand
 * boards the program file.
 */
uint32_t gurvoke_text(const uint8_t *text, size_t text_len, uint8_t *file, size_t file_len);

/*
 * Compiles a program file: writes its location table, GURVOKE_TABLE_LENGTH(parts) bytes, to the
 * start of `table`. Further bytes of `table` stay as they are. Answers 0 or a refusal: 1 to 7, each
 * over all parts, then 8.
 */
uint32_t gurvoke_compile(const uint8_t *file, size_t file_len, uint8_t *table, size_t table_len);

/*
 * Decompiles a location table: writes its program file, GURVOKE_FILE_LENGTH(parts) bytes, to the
 * start of `file`. Further bytes of `file` stay as they are. Answers 0 or a refusal: 9, then 8.
 *
 * Here and in the calls below the table's length counts: pass GURVOKE_TABLE_LENGTH(parts), not the
 * room that there is. Bytes after the table are refused with 9.
 */
uint32_t gurvoke_decompile(const uint8_t *table, size_t table_len, uint8_t *file, size_t file_len);

/*
 * Begins a run: writes a fresh record of GURVOKE_RECORD bytes to the start of `record`, whatever
 * it held before. The estimate has one byte for each variable: a value up to GURVOKE_MAX_VALUE, or
 * GURVOKE_UNKNOWN_VALUE where its sensor has nothing to say. Further bytes of `record` stay as they
 * are. Answers 0 or a refusal: 9, 13, 8.
 */
uint32_t gurvoke_begin(const uint8_t *table, size_t table_len, const uint8_t *estimate,
                       size_t estimate_len, uint8_t *record, size_t record_len);

/*
 * Offers the goals of a cycle at a time in whole seconds, not before the last one: writes one
 * byte for each variable to the start of `goals`, a value up to GURVOKE_MAX_VALUE, GURVOKE_NO_GOAL or
 * GURVOKE_CONTESTED, and the cycle into the record. Further bytes of `goals` and `record` stay as
 * they are. Answers a refusal (9, 10, 14, 11, 12, 8), or GURVOKE_ANSWERED + the lowest variable whose
 * goal byte is GURVOKE_CONTESTED, or GURVOKE_ANSWERED + GURVOKE_NONE where there is none.
 */
uint32_t gurvoke_offer(const uint8_t *table, size_t table_len, uint8_t *record, size_t record_len,
                       uint32_t time, uint8_t *goals, size_t goals_len);

/*
 * Settles the cycle with the new estimate, one byte for each variable: a value up to
 * GURVOKE_MAX_VALUE, or GURVOKE_UNKNOWN_VALUE where its sensor has nothing to say. Every START that is
 * marked before it sets its clock to the cycle's time, whether or not the clock is started; conditions
 * are judged by the clocks as they were before. The estimate is stored as it is: no earlier value
 * stands in for an unknown one. Further bytes of `record` stay as they are. Answers a refusal (9, 10,
 * 14, 11, 13, 15), GURVOKE_RUNNING or GURVOKE_FINISHED.
 */
uint32_t gurvoke_settle(const uint8_t *table, size_t table_len, uint8_t *record, size_t record_len,
                        const uint8_t *estimate, size_t estimate_len);

#ifdef __cplusplus
}
#endif

#endif
