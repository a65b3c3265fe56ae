/*
 * A plain executive over the location table: the five functions of include/gurvoke.h under another
 * prefix, with the same answers and buffers.
 *
 * It is written from document 01 and from document 02's, with nothing proved, as one
 * would write it for a board. The tests of the library run on it too, and bin/performance compares the
 * library's cost with its cost. It is one file, so that the compiler has all of it at hand, as it has
 * all of the library.
 */
#include <stdbool.h>
#include <stddef.h>
#include <stdint.h>
#include <string.h>

enum {
    MAX_PARTS = 200,
    MAX_VARIABLES = 32,
    MAX_CLOCKS = 16,
    MAX_DEPTH = 16,
    MAX_VALUE = 250,
    UNKNOWN_VALUE = 255, /* in an estimate */
    NO_PART = 255, /* no parent, no next */
    NONE = 255 /* no contested variable */
};

/* The sizes that begin every file and every table. */
enum { PARTS, VARIABLES, CLOCKS, SIZES_LEN };

/* A part has a kind and an operand in a file, and a row in a table. */
enum { OPERAND_LEN = 4, PART_LEN = 1 + OPERAND_LEN };
enum { KIND, END, PARENT, NEXT, OPERAND, ROW_LEN = OPERAND + OPERAND_LEN };

enum { GOAL = 1, START, WAIT, SEQ, PAR, MAINTAIN, CHOICE, REPEAT };

/* The tests of a condition. */
enum { EQUALS = 1, DIFFERS, AT_LEAST, BELOW };

/* A run record. */
enum { TIME_LEN = 4 };
enum {
    PHASE = 0,
    TIME = PHASE + 1,
    ESTIMATE = TIME + TIME_LEN,
    STARTED = ESTIMATE + MAX_VARIABLES,
    STARTS = STARTED + MAX_CLOCKS,
    MARKS = STARTS + TIME_LEN * MAX_CLOCKS,
    RECORD_LEN = MARKS + MAX_PARTS
};

/* The phases. */
enum { PHASE_WAITING, PHASE_OFFERED, PHASE_FINISHED };

/* The goal bytes that are no values. */
enum { CONTESTED = 254, NO_GOAL = 255 };

/* The answers. */
enum {
    DONE,
    FILE_TOO_SHORT,
    SIZE_OUT_OF_RANGE,
    WRONG_LENGTH,
    UNKNOWN_KIND,
    OPERAND_NOT_ALLOWED,
    NOT_ONE_TREE,
    TOO_DEEP,
    BUFFER_TOO_SHORT,
    NOT_A_TABLE,
    RECORD_NOT_ALLOWED,
    WRONG_PHASE,
    TIME_BEFORE_LAST,
    ESTIMATE_NOT_ALLOWED,
    RUN_FINISHED,
    NOTHING_AT_WORK,
    ANSWERED = 256,
    RUNNING = ANSWERED,
    FINISHED
};

/* Programs: what files and tables have in common. */

static bool sizes_allowed(const uint8_t *sizes)
{
    return sizes[PARTS] >= 1 && sizes[PARTS] <= MAX_PARTS && sizes[VARIABLES] >= 1 &&
           sizes[VARIABLES] <= MAX_VARIABLES && sizes[CLOCKS] <= MAX_CLOCKS;
}

/* b2 and b3 of an operand as one number. */
static unsigned value_of(const uint8_t *operand)
{
    return operand[2] + 256u * operand[3];
}

/* b0 is the test, b1 the variable or clock. */
static bool condition_allowed(const uint8_t *operand, const uint8_t *sizes)
{
    switch (operand[0]) {
    case EQUALS:
    case DIFFERS:
        return operand[1] < sizes[VARIABLES] && value_of(operand) <= MAX_VALUE;
    case AT_LEAST:
    case BELOW:
        return operand[1] < sizes[CLOCKS];
    default:
        return false;
    }
}

/* Whether the kind is known and allows the operand. */
static bool part_allowed(unsigned kind, const uint8_t *operand, const uint8_t *sizes)
{
    switch (kind) {
    case GOAL:
        return operand[0] == 0 && operand[1] < sizes[VARIABLES] && value_of(operand) <= MAX_VALUE;
    case START:
        return operand[0] == 0 && operand[1] < sizes[CLOCKS] && value_of(operand) == 0;
    case WAIT:
    case MAINTAIN:
    case CHOICE:
        return condition_allowed(operand, sizes);
    case SEQ:
    case PAR:
        return operand[0] >= 1 && operand[1] == 0 && value_of(operand) == 0;
    case REPEAT:
        return operand[0] == 0 && operand[1] == 0 && value_of(operand) == 0;
    default:
        return false;
    }
}

static unsigned child_count(unsigned kind, const uint8_t *operand)
{
    switch (kind) {
    case SEQ:
    case PAR:
        return operand[0];
    case MAINTAIN:
    case REPEAT:
        return 1;
    case CHOICE:
        return 2;
    default:
        return 0;
    }
}

/* The next of a child that ends before `end`, in a parent of this kind. */
static uint8_t next_of(unsigned child, unsigned end, unsigned parent_kind, bool is_last)
{
    switch (parent_kind) {
    case SEQ:
        return is_last ? NO_PART : (uint8_t)end;
    case REPEAT:
        return (uint8_t)child;
    default:
        return NO_PART;
    }
}

/* Reading a file. */

/* The first of the refusals 1 to 5, the last two over all parts. */
static uint32_t check_file(const uint8_t *file, size_t len)
{
    if (len < SIZES_LEN)
        return FILE_TOO_SHORT;
    if (!sizes_allowed(file))
        return SIZE_OUT_OF_RANGE;
    unsigned parts = file[PARTS];
    if (len != SIZES_LEN + PART_LEN * parts)
        return WRONG_LENGTH;
    const uint8_t *kinds = file + SIZES_LEN;
    const uint8_t *operands = kinds + parts;
    for (unsigned part = 0; part < parts; part++) {
        if (kinds[part] < GOAL || kinds[part] > REPEAT)
            return UNKNOWN_KIND;
    }
    for (unsigned part = 0; part < parts; part++) {
        if (!part_allowed(kinds[part], operands + OPERAND_LEN * part, file))
            return OPERAND_NOT_ALLOWED;
    }
    return DONE;
}

/* Finds where each part ends, if the parts form one tree, and how many levels it has, itself the
 * first. A part ends where its last child does; from the last part to the first, the children of
 * each are known. */
static bool find_ends(const uint8_t *file, uint8_t *ends, uint8_t *levels)
{
    unsigned parts = file[PARTS];
    const uint8_t *kinds = file + SIZES_LEN;
    const uint8_t *operands = kinds + parts;
    for (unsigned part = parts; part-- > 0;) {
        unsigned children = child_count(kinds[part], operands + OPERAND_LEN * part);
        unsigned end = part + 1;
        unsigned below = 0;
        for (; children > 0; children--) {
            if (end == parts)
                return false; /* a child is missing */
            if (below < levels[end])
                below = levels[end];
            end = ends[end];
        }
        ends[part] = (uint8_t)end;
        levels[part] = (uint8_t)(1 + below);
    }
    return ends[0] == parts;
}

static void write_table(const uint8_t *file, const uint8_t *ends, uint8_t *table)
{
    unsigned parts = file[PARTS];
    const uint8_t *kinds = file + SIZES_LEN;
    const uint8_t *operands = kinds + parts;
    uint8_t *rows = table + SIZES_LEN;
    memcpy(table, file, SIZES_LEN);
    rows[PARENT] = NO_PART;
    rows[NEXT] = NO_PART;
    for (unsigned part = 0; part < parts; part++) {
        uint8_t *row = rows + ROW_LEN * part;
        uint8_t kind = kinds[part];
        uint8_t end = ends[part];
        row[KIND] = kind;
        row[END] = end;
        memcpy(row + OPERAND, operands + OPERAND_LEN * part, OPERAND_LEN);
        for (unsigned child = part + 1; child < end; child = ends[child]) {
            uint8_t *child_row = rows + ROW_LEN * child;
            child_row[PARENT] = (uint8_t)part;
            child_row[NEXT] = next_of(child, ends[child], kind, ends[child] == end);
        }
    }
}

uint32_t board_compile(const uint8_t *file, size_t file_len, uint8_t *table, size_t table_len)
{
    uint8_t ends[MAX_PARTS];
    uint8_t levels[MAX_PARTS];
    uint32_t refusal = check_file(file, file_len);
    if (refusal != DONE)
        return refusal;
    if (!find_ends(file, ends, levels))
        return NOT_ONE_TREE;
    if (levels[0] > MAX_DEPTH)
        return TOO_DEEP;
    unsigned parts = file[PARTS];
    if (table_len < SIZES_LEN + ROW_LEN * parts)
        return BUFFER_TOO_SHORT;
    write_table(file, ends, table);
    return DONE;
}

/* Tables. */

static const uint8_t *row_of(const uint8_t *table, unsigned part)
{
    return table + SIZES_LEN + ROW_LEN * part;
}

/* Whether a part has as many children as it should, one after the other up to its end, and their
 * rows say so. Where a child's own end is wrong, that shows when its own children are looked at. */
static bool children_allowed(const uint8_t *table, unsigned part, uint8_t *depths)
{
    const uint8_t *row = row_of(table, part);
    unsigned child = part + 1;
    for (unsigned left = child_count(row[KIND], row + OPERAND); left > 0; left--) {
        if (child >= row[END])
            return false; /* a child is missing */
        const uint8_t *child_row = row_of(table, child);
        unsigned next = next_of(child, child_row[END], row[KIND], left == 1);
        if (child_row[PARENT] != part || child_row[NEXT] != next)
            return false;
        depths[child] = depths[part] + 1;
        child = child_row[END];
    }
    return child == row[END];
}

/* Whether the bytes are the table of some file. */
static bool is_table(const uint8_t *table, size_t len)
{
    uint8_t depths[MAX_PARTS];
    if (len < SIZES_LEN || !sizes_allowed(table))
        return false;
    unsigned parts = table[PARTS];
    if (len != SIZES_LEN + ROW_LEN * parts)
        return false;
    const uint8_t *root = row_of(table, 0);
    if (root[END] != parts || root[PARENT] != NO_PART || root[NEXT] != NO_PART)
        return false;
    depths[0] = 1;
    for (unsigned part = 0; part < parts; part++) {
        const uint8_t *row = row_of(table, part);
        if (!part_allowed(row[KIND], row + OPERAND, table))
            return false;
        if (depths[part] > MAX_DEPTH || !children_allowed(table, part, depths))
            return false;
    }
    return true;
}

uint32_t board_decompile(const uint8_t *table, size_t table_len, uint8_t *file, size_t file_len)
{
    if (!is_table(table, table_len))
        return NOT_A_TABLE;
    unsigned parts = table[PARTS];
    if (file_len < SIZES_LEN + PART_LEN * parts)
        return BUFFER_TOO_SHORT;
    uint8_t *kinds = file + SIZES_LEN;
    uint8_t *operands = kinds + parts;
    memcpy(file, table, SIZES_LEN);
    for (unsigned part = 0; part < parts; part++) {
        const uint8_t *row = row_of(table, part);
        kinds[part] = row[KIND];
        memcpy(operands + OPERAND_LEN * part, row + OPERAND, OPERAND_LEN);
    }
    return DONE;
}

/* Records. */

static uint32_t read_time(const uint8_t *bytes)
{
    return bytes[0] | (uint32_t)bytes[1] << 8 | (uint32_t)bytes[2] << 16 | (uint32_t)bytes[3] << 24;
}

static void write_time(uint8_t *bytes, uint32_t time)
{
    bytes[0] = (uint8_t)time;
    bytes[1] = (uint8_t)(time >> 8);
    bytes[2] = (uint8_t)(time >> 16);
    bytes[3] = (uint8_t)(time >> 24);
}

/* Whether each byte of an estimate is a value, or says that the variable is unknown. */
static bool values_allowed(const uint8_t *values, unsigned variables)
{
    for (unsigned variable = 0; variable < variables; variable++) {
        if (values[variable] > MAX_VALUE && values[variable] != UNKNOWN_VALUE)
            return false;
    }
    return true;
}

static bool all_zero(const uint8_t *bytes, unsigned from, unsigned to)
{
    for (unsigned place = from; place < to; place++) {
        if (bytes[place] != 0)
            return false;
    }
    return true;
}

static bool clocks_allowed(const uint8_t *record, unsigned clocks)
{
    uint32_t time = read_time(record + TIME);
    for (unsigned clock = 0; clock < MAX_CLOCKS; clock++) {
        uint32_t start = read_time(record + STARTS + TIME_LEN * clock);
        switch (record[STARTED + clock]) {
        case 0:
            if (start != 0)
                return false;
            break;
        case 1:
            if (clock >= clocks || start > time)
                return false;
            break;
        default:
            return false;
        }
    }
    return true;
}

/* Whether a marked part of this kind may have so many marked children. */
static bool count_allowed(unsigned kind, unsigned count, unsigned phase)
{
    switch (kind) {
    case SEQ:
    case REPEAT:
        return count == 1;
    case PAR:
        return count >= 1;
    case MAINTAIN:
        return count == 1 || phase == PHASE_OFFERED;
    case CHOICE:
        return count <= 1;
    default:
        return true;
    }
}

/* Whether a run that goes on may have these marks. From the last part to the first, the marked
 * children of a part have been counted when it is looked at. */
static bool marks_allowed(const uint8_t *table, const uint8_t *marks, unsigned phase)
{
    uint8_t counts[MAX_PARTS] = {0};
    for (unsigned part = table[PARTS]; part-- > 0;) {
        const uint8_t *row = row_of(table, part);
        if (marks[part] == 0)
            continue;
        if (marks[part] > 1 || !count_allowed(row[KIND], counts[part], phase))
            return false;
        if (part > 0) {
            if (marks[row[PARENT]] == 0)
                return false;
            counts[row[PARENT]]++;
        }
    }
    return marks[0] == 1;
}

static bool record_allowed(const uint8_t *table, const uint8_t *record, size_t len)
{
    if (len < RECORD_LEN || record[PHASE] > PHASE_FINISHED)
        return false;
    const uint8_t *estimate = record + ESTIMATE;
    if (!values_allowed(estimate, table[VARIABLES]) ||
        !all_zero(estimate, table[VARIABLES], MAX_VARIABLES))
        return false;
    if (!clocks_allowed(record, table[CLOCKS]))
        return false;
    const uint8_t *marks = record + MARKS;
    if (record[PHASE] == PHASE_FINISHED)
        return all_zero(marks, 0, MAX_PARTS);
    return all_zero(marks, table[PARTS], MAX_PARTS) && marks_allowed(table, marks, record[PHASE]);
}

static bool estimate_allowed(const uint8_t *table, const uint8_t *estimate, size_t len)
{
    return len == table[VARIABLES] && values_allowed(estimate, table[VARIABLES]);
}

/* Runs. */

/* Marks a part in which nothing is marked, and what begins with it inside. A parent comes before
 * its children, so one pass will do. */
static void initialise(const uint8_t *table, unsigned first, uint8_t *marks)
{
    unsigned end = row_of(table, first)[END];
    marks[first] = 1;
    for (unsigned part = first + 1; part < end; part++) {
        unsigned parent = row_of(table, part)[PARENT];
        switch (row_of(table, parent)[KIND]) {
        case SEQ:
            marks[part] = marks[parent] && part == parent + 1;
            break;
        case CHOICE:
            marks[part] = 0;
            break;
        default:
            marks[part] = marks[parent];
        }
    }
}

uint32_t board_begin(const uint8_t *table, size_t table_len, const uint8_t *estimate,
                     size_t estimate_len, uint8_t *record, size_t record_len)
{
    if (!is_table(table, table_len))
        return NOT_A_TABLE;
    if (!estimate_allowed(table, estimate, estimate_len))
        return ESTIMATE_NOT_ALLOWED;
    if (record_len < RECORD_LEN)
        return BUFFER_TOO_SHORT;
    memset(record, 0, RECORD_LEN);
    memcpy(record + ESTIMATE, estimate, estimate_len);
    initialise(table, 0, record + MARKS);
    return DONE;
}

/* The refusals that an offer and a settling begin with; the call wants the record in this phase. */
static uint32_t check_run(const uint8_t *table, size_t table_len, const uint8_t *record,
                          size_t record_len, unsigned phase)
{
    if (!is_table(table, table_len))
        return NOT_A_TABLE;
    if (!record_allowed(table, record, record_len))
        return RECORD_NOT_ALLOWED;
    if (record[PHASE] == PHASE_FINISHED)
        return RUN_FINISHED;
    if (record[PHASE] != phase)
        return WRONG_PHASE;
    return DONE;
}

/* What a condition comes to; over an unknown variable and over an unstarted clock it is open. */
enum outcome { SATISFIED, VIOLATED, OPEN };

static enum outcome outcome_of(const uint8_t *operand, const uint8_t *record,
                               const uint8_t *estimate)
{
    unsigned subject = operand[1];
    unsigned value = value_of(operand);
    if (operand[0] == EQUALS || operand[0] == DIFFERS) {
        if (estimate[subject] == UNKNOWN_VALUE)
            return OPEN;
        bool equal = estimate[subject] == value;
        return equal == (operand[0] == EQUALS) ? SATISFIED : VIOLATED;
    }
    if (record[STARTED + subject] == 0)
        return OPEN;
    uint32_t reading = read_time(record + TIME) - read_time(record + STARTS + TIME_LEN * subject);
    if (operand[0] == AT_LEAST)
        return reading >= value ? SATISFIED : VIOLATED;
    return reading < value ? SATISFIED : VIOLATED;
}

/* From the root down, a marked MAINTAIN that is violated loses every mark inside it; the marked
 * GOALs that are left give the goal bytes. */
static void offer_goals(const uint8_t *table, uint8_t *record, uint8_t *goals)
{
    unsigned parts = table[PARTS];
    uint8_t *marks = record + MARKS;
    memset(goals, NO_GOAL, table[VARIABLES]);
    for (unsigned part = 0; part < parts; part++) {
        if (marks[part] == 0)
            continue;
        const uint8_t *row = row_of(table, part);
        const uint8_t *operand = row + OPERAND;
        if (row[KIND] == MAINTAIN) {
            if (outcome_of(operand, record, record + ESTIMATE) == VIOLATED)
                memset(marks + part + 1, 0, row[END] - part - 1);
        } else if (row[KIND] == GOAL) {
            uint8_t *goal = goals + operand[1];
            if (*goal == NO_GOAL)
                *goal = operand[2];
            else if (*goal != operand[2])
                *goal = CONTESTED;
        }
    }
}

/* The lowest contested variable, which the offer names, or none. */
static unsigned lowest_contested(const uint8_t *goals, unsigned variables)
{
    for (unsigned variable = 0; variable < variables; variable++) {
        if (goals[variable] == CONTESTED)
            return variable;
    }
    return NONE;
}

uint32_t board_offer(const uint8_t *table, size_t table_len, uint8_t *record, size_t record_len,
                     uint32_t time, uint8_t *goals, size_t goals_len)
{
    uint32_t refusal = check_run(table, table_len, record, record_len, PHASE_WAITING);
    if (refusal != DONE)
        return refusal;
    if (time < read_time(record + TIME))
        return TIME_BEFORE_LAST;
    if (goals_len < table[VARIABLES])
        return BUFFER_TOO_SHORT;
    record[PHASE] = PHASE_OFFERED;
    write_time(record + TIME, time);
    offer_goals(table, record, goals);
    return ANSWERED + lowest_contested(goals, table[VARIABLES]);
}

/* Whether nothing is marked inside a part. */
static bool is_hollow(const uint8_t *table, unsigned part, const uint8_t *marks)
{
    return all_zero(marks, part + 1, row_of(table, part)[END]);
}

static unsigned chosen_branch(const uint8_t *table, unsigned choice, const uint8_t *record,
                              const uint8_t *estimate)
{
    const uint8_t *operand = row_of(table, choice) + OPERAND;
    unsigned first = choice + 1;
    if (outcome_of(operand, record, estimate) == SATISFIED)
        return first;
    return row_of(table, first)[END];
}

/* Whether a marked part that is no deciding CHOICE ends; what is inside it has been settled. */
static bool part_ends(const uint8_t *table, unsigned part, const uint8_t *record,
                      const uint8_t *estimate, const uint8_t *after)
{
    const uint8_t *row = row_of(table, part);
    const uint8_t *operand = row + OPERAND;
    switch (row[KIND]) {
    case GOAL: /* a variable that is unknown has no value that a GOAL can name */
        return estimate[operand[1]] == operand[2];
    case START:
        return true;
    case WAIT:
        return outcome_of(operand, record, estimate) == SATISFIED;
    default:
        return is_hollow(table, part, after);
    }
}

/* Settles the marks, from the last part to the first, so that what is inside a part is settled
 * before it. Only the parts that are marked in the record are judged, no newly marked ones. */
static void settle_marks(const uint8_t *table, const uint8_t *record, const uint8_t *estimate,
                         uint8_t *after)
{
    const uint8_t *before = record + MARKS;
    memcpy(after, before, MAX_PARTS);
    for (unsigned part = table[PARTS]; part-- > 0;) {
        const uint8_t *row = row_of(table, part);
        if (before[part] == 0)
            continue;
        if (row[KIND] == CHOICE && is_hollow(table, part, before)) {
            initialise(table, chosen_branch(table, part, record, estimate), after);
        } else if (part_ends(table, part, record, estimate, after)) {
            after[part] = 0;
            if (row[NEXT] != NO_PART)
                initialise(table, row[NEXT], after);
        }
    }
}

/* Whether a leaf or a deciding CHOICE is marked. */
static bool goes_on(const uint8_t *table, const uint8_t *marks)
{
    unsigned parts = table[PARTS];
    for (unsigned part = 0; part < parts; part++) {
        unsigned kind = row_of(table, part)[KIND];
        if (marks[part] == 0)
            continue;
        if (kind <= WAIT || (kind == CHOICE && is_hollow(table, part, marks)))
            return true;
    }
    return false;
}

/* Every marked START sets its clock to the cycle's time. */
static void start_clocks(const uint8_t *table, uint8_t *record)
{
    unsigned parts = table[PARTS];
    uint32_t time = read_time(record + TIME);
    for (unsigned part = 0; part < parts; part++) {
        const uint8_t *row = row_of(table, part);
        if (record[MARKS + part] == 0 || row[KIND] != START)
            continue;
        unsigned clock = row[OPERAND + 1];
        record[STARTED + clock] = 1;
        write_time(record + STARTS + TIME_LEN * clock, time);
    }
}

uint32_t board_settle(const uint8_t *table, size_t table_len, uint8_t *record, size_t record_len,
                      const uint8_t *estimate, size_t estimate_len)
{
    uint8_t after[MAX_PARTS];
    uint32_t refusal = check_run(table, table_len, record, record_len, PHASE_OFFERED);
    if (refusal != DONE)
        return refusal;
    if (!estimate_allowed(table, estimate, estimate_len))
        return ESTIMATE_NOT_ALLOWED;
    settle_marks(table, record, estimate, after);
    bool finished = after[0] == 0;
    if (!finished && !goes_on(table, after))
        return NOTHING_AT_WORK;
    start_clocks(table, record);
    record[PHASE] = finished ? PHASE_FINISHED : PHASE_WAITING;
    memcpy(record + ESTIMATE, estimate, estimate_len);
    memcpy(record + MARKS, after, MAX_PARTS);
    return finished ? FINISHED : RUNNING;
}
