/* Measures the stack that a call of each function uses and fails where that is not less than the header says. A call runs in a thread
 * whose stack is painted first; the paint that is gone tells what the call used. The sheets have 512 cells, the class 32 answers, the log
 * 1,024 entries, the LABs and the list 32 cells and eight needs, the most there are, of eight nets, on eight entries, as many as a board may
 * have, so that the search goes as deep as it can; where no way is found it makes 69,280 tries. Built without sanitizers, whose frames would be
 * measured too. */
#define _XOPEN_SOURCE 600
#include "logs.h"

#include <pthread.h>

#define KIB 1024
#define ROOM (256 * KIB)
#define PAINT 0xc5
/* Not painted: what may belong to the measuring function itself. */
#define MARGIN 256

#define CELLS 512
#define LIST 32
/* The lowest LAB of the answer; each of the next ones has as many cells. */
#define FIRST_LAB 992

/* The header's figures: each function uses less. */
#define JUDGE_LIMIT (48 * KIB)
#define CLASS_LIMIT (48 * KIB)
#define MINUTES_LIMIT (24 * KIB)
#define CHECK_LIMIT (8 * KIB)
#define WRITE_EXERCISE_LIMIT (16 * KIB)
/* Every other function. */
#define SMALL_LIMIT (1 * KIB)

static uint8_t exercise[9 + 24 * CELLS], answer[11 + 4 * CELLS], route[NURIMKKOT_ROUTE_SIZE], bytes[8], said;
static uint64_t numbers[NURIMKKOT_NUMBERS];
static uint32_t tries[NURIMKKOT_TRIES];
static size_t tries_count = NURIMKKOT_TRIES;
static uint8_t class_sheet[7 + NURIMKKOT_MOST_ANSWERS * (2 + sizeof answer)];
static struct nurimkkot_row rows[NURIMKKOT_MOST_ANSWERS];
static size_t lent, filled;
static uint8_t tablet[NURIMKKOT_LOG_LENGTH(NURIMKKOT_LOG_ENTRIES)];
static struct nurimkkot_credit credits[NURIMKKOT_CREDIT_ROWS];
static uint16_t listed[NURIMKKOT_LOG_ENTRIES];
static size_t credit_rows = NURIMKKOT_CREDIT_ROWS, credited, listed_count;
static struct nurimkkot_cell cells[CELLS], list[LIST], read_back;
static uint16_t places[3 * CELLS], at, fields[NURIMKKOT_CELL_FIELDS];
static uint8_t sheet[sizeof exercise];
static size_t length;

/* A settings sheet of version 2 with eight entries, and what is read from it. */
static uint8_t settings[NURIMKKOT_MOST_SETTINGS] = {'L', 'X', 'T', 2, 0, 8, 2, 0}, entries[NURIMKKOT_MOST_ENTRIES];
static uint16_t board[NURIMKKOT_SETTINGS_NUMBERS];

static void judge(void)
{
    nurimkkot_judge(settings, sizeof settings, exercise, sizeof exercise, answer, sizeof answer, route, sizeof route, tries, tries_count,
                    numbers);
}

static void mark_class(void)
{
    said = nurimkkot_mark_class(settings, sizeof settings, exercise, sizeof exercise, class_sheet, sizeof class_sheet, rows, lent, &filled);
}

static void minutes(void)
{
    said = nurimkkot_minutes(tablet, sizeof tablet, credits, credit_rows, listed, NURIMKKOT_LOG_ENTRIES, &credited, &listed_count);
}

static void check_lab(void)
{
    said = nurimkkot_check_lab(settings, sizeof settings, list, LIST, bytes);
}

static void open_exercise(void)
{
    said = nurimkkot_open_exercise(exercise, sizeof exercise);
}

static void open_answer(void)
{
    said = nurimkkot_open_answer(answer, sizeof answer);
}

static void next_cell(void)
{
    said = nurimkkot_next_cell(exercise, sizeof exercise, &at, fields);
}

static void next_place(void)
{
    said = nurimkkot_next_place(answer, sizeof answer, &at, fields);
}

static void next_record(void)
{
    said = nurimkkot_next_record(exercise, sizeof exercise, &at, &read_back);
}

static void write_exercise(void)
{
    said = nurimkkot_write_exercise(1024, cells, CELLS, sheet, sizeof exercise, &length);
}

static void write_answer(void)
{
    said = nurimkkot_write_answer(7, places, CELLS, sheet, sizeof answer, &length);
}

static void house_settings(void)
{
    nurimkkot_house_settings(sheet);
}

static void read_settings(void)
{
    said = nurimkkot_read_settings(settings, sizeof settings, board, entries);
}

static void write_settings(void)
{
    said = nurimkkot_write_settings(2, 2, settings + 8, 8, sheet, sizeof settings, &length);
}

/* A stack, the call to make on it, and how many bytes it used: MARGIN where it used no more than that. */
struct measured {
    uint8_t *room;
    void (*call)(void);
    size_t used;
};

static void *measure(void *argument)
{
    struct measured *m = argument;
    volatile uint8_t *room = m->room;
    volatile uint8_t here = 0;
    size_t top = (size_t)((uintptr_t)&here - (uintptr_t)room), i;
    for (i = 0; i < top - MARGIN; i++)
        room[i] = PAINT;
    m->call();
    for (i = 0; i < top - MARGIN && room[i] == PAINT; i++)
        continue;
    m->used = top - i;
    return NULL;
}

/* Makes a call, and sees that it uses less than the limit. Gives the larger of `before` and what it used. */
static size_t less_than(size_t limit, const char *what, void (*call)(void), size_t before)
{
    struct measured m = {NULL, NULL, ROOM};
    pthread_attr_t attributes;
    pthread_t thread;
    void *room;
    if (posix_memalign(&room, 4 * KIB, ROOM) != 0 || pthread_attr_init(&attributes) != 0)
        exit(2);
    m.room = room;
    m.call = call;
    if (pthread_attr_setstack(&attributes, room, ROOM) != 0 || pthread_create(&thread, &attributes, measure, &m) != 0
        || pthread_join(thread, NULL) != 0)
        exit(2);
    expect(m.used < limit, what, (long)m.used);
    pthread_attr_destroy(&attributes);
    free(room);
    return m.used > before ? m.used : before;
}

/* A register, or a combinational cell that reads four nets. The registers of a LAB have two clk, two ena, two aclr, sclr and sload. */
static struct nurimkkot_cell cell_of(int i)
{
    struct nurimkkot_cell cell = {1, 0, {2051, 2049, 2047, 2045}};
    uint16_t other = (uint16_t)(2 * (i % 2));
    if (i % LIST < LIST / 2) {
        cell.kind = 2;
        cell.signals[0] = 0;
        cell.signals[1] = (uint16_t)(4 + other);
        cell.signals[2] = (uint16_t)(16 + other);
        cell.signals[3] = (uint16_t)(8 + other);
        cell.signals[4] = 12;
        cell.signals[5] = 14;
        cell.signals[6] = 2;
        cell.signals[7] = (uint16_t)(200 + 2 * i);
    }
    return cell;
}

/* Fills the sheets, the list, and the cells and places to write. Each of the eight entries serves these roles. It does without memcpy and
 * memset, so that the first call to be measured is the first to use them: a program that binds them late does so there, on the same stack. */
static void fill(uint8_t roles)
{
    static const uint8_t exercise_head[9] = {'L', 'X', 'E', 1, 0, 0, 4, 0, 2}, answer_head[11] = {'L', 'X', 'A', 1, 0, 7, 0, 0, 0, 0, 2};
    int i, j;
    for (i = 0; i < 8; i++)
        settings[8 + i] = roles;
    for (i = 0; i < 9; i++)
        exercise[i] = exercise_head[i];
    for (i = 0; i < 11; i++)
        answer[i] = answer_head[i];
    for (i = 0; i < CELLS; i++) {
        struct nurimkkot_cell cell = cell_of(i);
        uint8_t *record = exercise + 9 + 24 * i, *place = answer + 11 + 4 * i;
        cells[i] = cell;
        if (i < LIST)
            list[i] = cell;
        record[0] = cell.kind;
        record[1] = cell.flag;
        for (j = 0; j < 11; j++) {
            record[2 + 2 * j] = (uint8_t)(cell.signals[j] % 256);
            record[3 + 2 * j] = (uint8_t)(cell.signals[j] / 256);
        }
        place[0] = (uint8_t)(i / LIST);
        place[1] = FIRST_LAB / 32;
        place[2] = (uint8_t)(i % 16);
        place[3] = 0;
        for (j = 0; j < 3; j++)
            places[3 * i + j] = place[j];
    }
}

/* Puts a class sheet together, of as many answers as there may be; each is the answer of fill(), and does without memcpy too. */
static void fill_class(void)
{
    static const uint8_t head[7] = {'L', 'X', 'C', 1, 0, NURIMKKOT_MOST_ANSWERS, 0};
    uint8_t *to = class_sheet;
    size_t i, j;
    for (j = 0; j < sizeof head; j++)
        *to++ = head[j];
    for (i = 0; i < NURIMKKOT_MOST_ANSWERS; i++) {
        *to++ = sizeof answer % 256;
        *to++ = sizeof answer / 256;
        for (j = 0; j < sizeof answer; j++)
            *to++ = answer[j];
    }
}

/* The judge on the sheets of fill(): a way of eight needs found at once in every LAB, or none after all others were tried in the first LAB;
 * then with a number too few in the list of tries. Gives the larger of `before` and what they used. */
static size_t judgements(int served, size_t before)
{
    size_t used, lab;
    used = less_than(JUDGE_LIMIT, "stack of nurimkkot_judge", judge, before);
    expect(numbers[NURIMKKOT_NUMBER] == (served ? 0 : 65), "verdict of the sheets", (long)numbers[NURIMKKOT_NUMBER]);
    for (lab = 0; lab < NURIMKKOT_TRIES; lab++) {
        uint32_t searched = served ? 8 : lab == FIRST_LAB ? 69280 : 0;
        expect(tries[lab] == (lab >= FIRST_LAB && lab < FIRST_LAB + CELLS / LIST ? searched : 0), "tries of a LAB", (long)lab);
    }
    tries_count--;
    used = less_than(JUDGE_LIMIT, "stack of nurimkkot_judge", judge, used);
    expect(numbers[NURIMKKOT_NUMBER] == 3, "a list of tries with a number too few", (long)numbers[NURIMKKOT_NUMBER]);
    tries_count++;
    return used;
}

/* A class of as many answers as there may be, every row with this verdict; then one with a row too few, and one with a byte of its mark
 * wrong. Gives the larger of `before` and what they used. */
static size_t classes(uint8_t verdict, size_t before)
{
    size_t used, i;
    fill_class();
    lent = NURIMKKOT_MOST_ANSWERS;
    used = less_than(CLASS_LIMIT, "stack of nurimkkot_mark_class", mark_class, before);
    expect(said == 0 && filled == NURIMKKOT_MOST_ANSWERS, "a class marked", said);
    for (i = 0; i < NURIMKKOT_MOST_ANSWERS; i++)
        expect(rows[i].number == verdict && rows[i].apprentice == 7, "verdict of a row", (long)i);
    lent--;
    used = less_than(CLASS_LIMIT, "stack of nurimkkot_mark_class", mark_class, used);
    expect(said == 77 && filled == 0, "a class with a row too few", said);
    class_sheet[2] = 'A';
    used = less_than(CLASS_LIMIT, "stack of nurimkkot_mark_class", mark_class, used);
    expect(said == 76 && filled == 0, "a class with another mark", said);
    return used;
}

/* A log of as many entries as there may be, of these apprentices; every fourth covers no minute. */
static void fill_log(uint32_t apprentices)
{
    static struct entry all[NURIMKKOT_LOG_ENTRIES];
    uint16_t i;
    for (i = 0; i < NURIMKKOT_LOG_ENTRIES; i++) {
        all[i].apprentice = apprentices - i % apprentices;
        all[i].opening = (uint16_t)(5 * i);
        all[i].closing = (uint16_t)(5 * i + i % 4 * 3000 % 4001);
    }
    put_log(tablet, all, NURIMKKOT_LOG_ENTRIES);
}

/* A log of one apprentice, of as many as there may be and of one more; then with a minute above the week, and with a row too few.
 * Gives the most that they used. */
static size_t logs(void)
{
    size_t used;
    fill_log(1);
    used = less_than(MINUTES_LIMIT, "stack of nurimkkot_minutes", minutes, 0);
    expect(said == 0 && credited == 1, "a log of one apprentice", said);
    fill_log(NURIMKKOT_CREDIT_ROWS);
    used = less_than(MINUTES_LIMIT, "stack of nurimkkot_minutes", minutes, used);
    expect(said == 0 && credited == NURIMKKOT_CREDIT_ROWS && listed_count == NURIMKKOT_LOG_ENTRIES / 4, "a log of as many as there may be", said);
    fill_log(NURIMKKOT_CREDIT_ROWS + 1);
    used = less_than(MINUTES_LIMIT, "stack of nurimkkot_minutes", minutes, used);
    expect(said == 86, "a log of one apprentice more", said);
    tablet[sizeof tablet - 5] = 255;
    used = less_than(MINUTES_LIMIT, "stack of nurimkkot_minutes", minutes, used);
    expect(said == 85, "a log with a minute above the week", said);
    credit_rows--;
    used = less_than(MINUTES_LIMIT, "stack of nurimkkot_minutes", minutes, used);
    expect(said == 87 && credited == 0 && listed_count == 0, "a log with a row too few", said);
    return used;
}

/* The readers of both sheets. The first cell is a register, the last one combinational. Gives the most that one of them used. */
static size_t readers(void)
{
    size_t reads = less_than(SMALL_LIMIT, "stack of nurimkkot_open_exercise", open_exercise, 0);
    int last;
    reads = less_than(SMALL_LIMIT, "stack of nurimkkot_open_answer", open_answer, reads);
    for (last = 0; last < 2; last++) {
        at = last ? CELLS - 1 : 0;
        reads = less_than(SMALL_LIMIT, "stack of nurimkkot_next_cell", next_cell, reads);
        expect(said == NURIMKKOT_GIVEN, "a cell of the exercise", at);
        at = last ? CELLS - 1 : 0;
        reads = less_than(SMALL_LIMIT, "stack of nurimkkot_next_record", next_record, reads);
        expect(said == NURIMKKOT_GIVEN && read_back.kind == (last ? 1 : 2), "a record of the exercise", at);
        at = last ? CELLS - 1 : 0;
        reads = less_than(SMALL_LIMIT, "stack of nurimkkot_next_place", next_place, reads);
        expect(said == NURIMKKOT_GIVEN, "a place of the answer", at);
    }
    return reads;
}

/* The two writers, on as many records as there may be; then on a last one that is broken. */
static void writers(size_t *exercises, size_t *answers)
{
    *exercises = less_than(WRITE_EXERCISE_LIMIT, "stack of nurimkkot_write_exercise", write_exercise, 0);
    expect(said == 0 && length == sizeof exercise, "an exercise written", said);
    *answers = less_than(SMALL_LIMIT, "stack of nurimkkot_write_answer", write_answer, 0);
    expect(said == 0 && length == sizeof answer, "an answer written", said);
    cells[CELLS - 1].signals[5] = 3;
    *exercises = less_than(WRITE_EXERCISE_LIMIT, "stack of nurimkkot_write_exercise", write_exercise, *exercises);
    expect(said == 15, "an exercise refused", said);
    places[3 * CELLS - 1] = 16;
    *answers = less_than(SMALL_LIMIT, "stack of nurimkkot_write_answer", write_answer, *answers);
    expect(said == 26, "an answer refused", said);
}

/* The functions of the settings sheet, with as many entries as there may be; then with a last one that is broken. Gives the most that one of
 * them used. */
static size_t boards(void)
{
    size_t used = less_than(SMALL_LIMIT, "stack of nurimkkot_house_settings", house_settings, 0);
    expect(sheet[0] == 'L' && sheet[11] == 0x18, "document 01's board", sheet[11]);
    used = less_than(SMALL_LIMIT, "stack of nurimkkot_read_settings", read_settings, used);
    expect(said == 0 && board[NURIMKKOT_SETTINGS_ENTRIES] == 8, "a settings sheet read", said);
    used = less_than(SMALL_LIMIT, "stack of nurimkkot_write_settings", write_settings, used);
    expect(said == 0 && length == sizeof settings, "a settings sheet written", said);
    settings[15] = 32;
    used = less_than(SMALL_LIMIT, "stack of nurimkkot_read_settings", read_settings, used);
    expect(said == 75, "a settings sheet that can't be read", said);
    used = less_than(SMALL_LIMIT, "stack of nurimkkot_write_settings", write_settings, used);
    expect(said == 75, "a settings sheet refused", said);
    return used;
}

int main(void)
{
    size_t judges = 0, marks = 0, checks = 0, replays, reads, exercises, answers, settled;
    int served;
    /* Eight needs, which all get an entry; then the last of them, sload, gets none, and every other way is tried. */
    for (served = 1; served >= 0; served--) {
        uint8_t expected = served ? 0 : 65;
        fill(served ? 31 : 31 - NURIMKKOT_SLOAD);
        checks = less_than(CHECK_LIMIT, "stack of nurimkkot_check_lab", check_lab, checks);
        expect(said == expected, "number of the list", said);
        judges = judgements(served, judges);
        marks = classes(expected, marks);
    }
    expect(checks > MARGIN && judges > MARGIN && marks > MARGIN, "the measuring itself", (long)judges);
    replays = logs();
    reads = readers();
    writers(&exercises, &answers);
    settled = boards();
    printf("C: stack: nurimkkot_judge %lu bytes, nurimkkot_mark_class %lu, nurimkkot_minutes %lu, nurimkkot_check_lab %lu, a reader at most %lu, "
           "nurimkkot_write_exercise %lu, nurimkkot_write_answer %lu, the settings sheet at most %lu\n", (unsigned long)judges,
           (unsigned long)marks, (unsigned long)replays, (unsigned long)checks, (unsigned long)reads, (unsigned long)exercises,
           (unsigned long)answers, (unsigned long)settled);
    return failures != 0;
}
