/* Nurimkkot: the judge of FPGA placement exercises, for one answer and for a class, the minutes on a tablet's log, the check of one LAB, the
 * readers and the writers of exercise, answer and settings sheets, for C.
 *
 * Link with libc_api.a, which `rt lib`, called in crates/c_api, writes to crates/c_api/out. The archive is for x86-64 Linux, position independent,
 * and calls nothing but memory functions of the C library (memcpy, memset and the like). docs/SHEETS.md has the layout of the sheets.
 *
 * Every function asks this of its pointers:
 *   - a pointer is valid for the length or count that goes with it, or for the array that is declared here;
 *   - no pointer is NULL, but one whose length, count or room is 0: an empty sheet, log, buffer or list may be NULL. That is tested
 *     (tests/c/null.c), not proved;
 *   - a pointer is aligned for its type. The records in a sheet need not be: copy them, and do not cast `exercise + 9` to
 *     struct nurimkkot_cell *;
 *   - what the call writes (route, tries, numbers, rows, *filled, *rows_filled, *entries_filled, *at, cell, place, sheet, entries,
 *     *length) overlaps nothing else that is passed to the same call. What it only reads may overlap.
 * Nothing is asked of the contents: a sheet, a log, a list and *at may hold anything, and a length, count or room may be any, also 0.
 *
 * Every call returns. It allocates nothing and keeps nothing, so threads may call at the same time, where none writes what another
 * uses.
 *
 * Stack: nurimkkot_judge and nurimkkot_mark_class use less than 48 KiB each, nurimkkot_minutes less than 24 KiB,
 * nurimkkot_write_exercise less than 16 KiB, nurimkkot_check_lab less than 8 KiB, every other function less than 1 KiB. That is measured,
 * not proved: tests/c/stack.c fails above these figures. */
#ifndef NURIMKKOT_H
#define NURIMKKOT_H

#include <stddef.h>
#include <stdint.h>

#ifdef __cplusplus
extern "C" {
#endif

/* The length of the judge's route buffer: eight bytes for each of 1,024 LABs. */
#define NURIMKKOT_ROUTE_SIZE 8192

/* The length of the judge's list of tries: a number for each of 1,024 LABs. */
#define NURIMKKOT_TRIES 1024

/* "None" in the cell and in the LAB of a verdict. */
#define NURIMKKOT_NONE 65535

/* "No need" in a route byte. */
#define NURIMKKOT_NO_ENTRY 255

/* The settings sheet says which roles each control entry of a LAB serves: docs/SHEETS.md. A call that judges takes one, and judges by
 * the entries on it. What a settings sheet has at most: entries, and bytes. */
#define NURIMKKOT_MOST_ENTRIES 8
#define NURIMKKOT_MOST_SETTINGS 16

/* The roles in an entry's byte of flags. An entry that serves none has 0. */
enum {
    NURIMKKOT_CLK = 1,
    NURIMKKOT_ENA = 2,
    NURIMKKOT_ACLR = 4,
    NURIMKKOT_SCLR = 8,
    NURIMKKOT_SLOAD = 16
};

/* Writes the settings sheet of the board of document 01: version 1, six entries, 12 bytes. boards/house.lxt has the same. */
#define NURIMKKOT_HOUSE_SETTINGS 12
void nurimkkot_house_settings(uint8_t settings[NURIMKKOT_HOUSE_SETTINGS]);

/* What each of the seven numbers is. */
enum {
    NURIMKKOT_NUMBER,     /* the verdict: 0 is legal, docs/VERDICTS.md lists the others */
    NURIMKKOT_CELL,       /* the cell at fault, or NURIMKKOT_NONE */
    NURIMKKOT_LAB,        /* the LAB at fault (32y + x), or NURIMKKOT_NONE */
    NURIMKKOT_APPRENTICE, /* the number on the answer sheet; 0 for verdicts 1 to 23 and 70 to 75 */
    NURIMKKOT_SHEET,      /* where the culprit stands: 0 the exercise, 1 the answer */
    NURIMKKOT_START,      /* its first byte */
    NURIMKKOT_LENGTH,     /* its length in bytes */
    NURIMKKOT_NUMBERS     /* how many numbers there are */
};

/* Judges an exercise sheet and an answer sheet on the board of a settings sheet.
 *
 * settings   a sheet that is none gives a verdict of 70 to 75, after 1 and 3 and before all others. The board's number changes no
 *            verdict.
 * route      where the verdict is 0, all 8,192 bytes are written: for LAB n the eight bytes from 8 * n on are the control entries
 *            of two clk, two ena, two aclr, sclr and sload, NURIMKKOT_NO_ENTRY where there is no need. Several of the eight may hold
 *            the same entry: the needs are then of one net, in either polarity. Where the verdict is another, not one byte is touched.
 *            A buffer that isn't exactly 8,192 bytes long gives verdict 1.
 * tries      where the verdict is 0 or 65, all 1,024 numbers are written: number n is how many tries the search for the control
 *            entries of LAB n made. It is 0 for an empty LAB, for one without needs and, on 65, for one above the LAB at fault. Where
 *            the verdict is another, not one number is touched. `tries_count` is in numbers, not in bytes; one that isn't exactly
 *            1,024 gives verdict 3, right after 1 and before all others.
 * numbers    all seven are written, whatever the verdict.
 *
 * A try gives the first one or more of a LAB's needs an entry each that serves its role; two of them have the same entry only where they
 * are of one net, in either polarity. Of two tries that differ, the one with the smaller entry at the first need where they do comes
 * first, and a shorter one comes before those that extend it. The tries of a LAB are those up to its route, the route itself counted;
 * where it has none (65), all there are. That is at most 19,173,960 with eight needs and eight entries. 1,024 times as much is more than
 * 32 bits hold: add the numbers up in 64. */
void nurimkkot_judge(const uint8_t *settings, size_t settings_length,
                     const uint8_t *exercise, size_t exercise_length,
                     const uint8_t *answer, size_t answer_length,
                     uint8_t *route, size_t route_length,
                     uint32_t *tries, size_t tries_count,
                     uint64_t numbers[NURIMKKOT_NUMBERS]);

/* A row: what the judge says of one answer of a class. It has no culprit; nurimkkot_judge tells it for that answer alone. */
struct nurimkkot_row {
    uint32_t number;     /* the verdict, as NURIMKKOT_NUMBER; never 1 or 3 */
    uint32_t cell;       /* the cell at fault, or NURIMKKOT_NONE */
    uint32_t lab;        /* the LAB at fault, or NURIMKKOT_NONE */
    uint32_t apprentice; /* the number on that answer sheet; 0 for verdicts 10 to 23 and 70 to 75 */
};

/* What a class sheet has at most: answers. */
#define NURIMKKOT_MOST_ANSWERS 32

/* Marks the answers on a class sheet, all to one exercise and on the board of one settings sheet. docs/SHEETS.md has the layout of a class
 * sheet: a head and each answer sheet after its length.
 *
 * Returns 0 and fills one row for each answer, in the order of the answers, with the four numbers that nurimkkot_judge has for that
 * answer, a route buffer and a list of tries of the right size; *filled is how many. The rows past the last answer stay, and no route
 * and no tries are written. A settings sheet or an exercise that is refused shows in rows, never in what is returned: 70 to 75 and 10 to
 * 16 in every row, 30 to 44 in the row of every answer that passes 20 to 26.
 *
 * Or returns the first of these that applies, before it looks at the other sheets; then not one row is touched, and *filled is 0:
 *   76  the class sheet has under 7 bytes, a wrong mark or version, more than 32 answers, or lengths that do not add up to its own;
 *   77  `count`, the number of rows lent, is less than the number of answers.
 * NURIMKKOT_MOST_ANSWERS rows are enough for every class sheet.
 *
 * What depends on settings and exercise alone is worked out once for all answers. */
uint8_t nurimkkot_mark_class(const uint8_t *settings, size_t settings_length,
                             const uint8_t *exercise, size_t exercise_length,
                             const uint8_t *class_sheet, size_t class_length,
                             struct nurimkkot_row *rows, size_t count, size_t *filled);

/* A row: an apprentice's number and minutes. */
struct nurimkkot_credit {
    uint32_t apprentice;
    uint32_t minutes;
};

/* What nurimkkot_minutes is lent: so many rows and entry numbers, as many as a log has apprentices and entries at most. */
#define NURIMKKOT_CREDIT_ROWS 64
#define NURIMKKOT_LOG_ENTRIES 1024

/* How many bytes a log of so many entries has. */
#define NURIMKKOT_LOG_LENGTH(entries) (7 + 14 * (size_t)(entries))

/* Counts the minutes of each apprentice on a tablet's log of one week.
 *
 * A log has the mark LXL, the version, 1, and the count of its entries, 16 bits each; then 14 bytes an entry: apprentice (32 bits), verdict,
 * opening minute, closing minute (16 each), login (32). Low bytes come first. An entry covers the minutes from its opening to before its
 * closing; one that closes at or before its opening covers none. An apprentice's minutes are the distinct minutes that the entries with that
 * apprentice cover. Verdict and login may be anything and change nothing.
 *
 * Returns 0 and fills
 *   - one row for each apprentice on the log, by rising number, also for one with no minutes; *rows_filled is how many;
 *   - the number of each entry that covers no minute, rising, the first entry being 0; *entries_filled is how many.
 * The rest of both lists stays. The minutes of all rows add up to the number of distinct pairs of apprentice and covered minute.
 *
 * Or returns the first of these that applies; then not one row and not one entry number is touched, and both counts are 0:
 *   87  row_count is not NURIMKKOT_CREDIT_ROWS, or entry_count is not NURIMKKOT_LOG_ENTRIES;
 *   80  the log has under 7 bytes;
 *   81  it does not begin with LXL;
 *   82  it has another version than 1;
 *   83  it has more than NURIMKKOT_LOG_ENTRIES entries;
 *   84  it is not as long as its count says, NURIMKKOT_LOG_LENGTH(count);
 *   85  in some entry the opening or the closing minute is above 10,080, or the apprentice is 0;
 *   86  there are more than NURIMKKOT_CREDIT_ROWS apprentices, those with no minutes counted too. */
uint8_t nurimkkot_minutes(const uint8_t *log, size_t log_length,
                          struct nurimkkot_credit *rows, size_t row_count,
                          uint16_t *entries, size_t entry_count,
                          size_t *rows_filled, size_t *entries_filled);

/* A cell's record: kind (1 combinational, 2 register), flag and eleven signals, as nurimkkot_next_record gives them. On a little-endian
 * machine, such as x86-64, it has the very 24 bytes of the record in the exercise sheet. */
struct nurimkkot_cell {
    uint8_t kind;
    uint8_t flag;
    uint16_t signals[11];
};

/* The check of one LAB of a board on a list of its cells' records, in any order, as a tablet may make it while an answer is still being
 * placed.
 *
 * Returns 18 if the list has over 32 cells, or a record that breaks the layout (at 1,024 nets) or one of rules 30 to 35; otherwise
 * the number of 70 to 75 that applies to the settings sheet; otherwise the lowest broken of rules 60 to 65; otherwise 0. All eight bytes
 * of `route` are written: the LAB's route bytes where the number is 0, eight times NURIMKKOT_NO_ENTRY where it is another. Tries are
 * not told here.
 *
 * Beside the judge: for the same settings sheet, for sheets that pass all rules up to 51 and 70 to 75, and for a list of the records of
 * all cells that the answer puts into one LAB, whatever their order,
 *   - the number is never 18;
 *   - where nurimkkot_judge names that LAB, its verdict is this number;
 *   - where nurimkkot_judge says legal, this number is 0 and these are the LAB's eight bytes of its route buffer;
 *   - nurimkkot_judge names only the lowest broken LAB: every lower LAB has number 0 here, and of a higher one it says nothing. */
uint8_t nurimkkot_check_lab(const uint8_t *settings, size_t settings_length,
                            const struct nurimkkot_cell *cells, size_t count, uint8_t route[8]);

/* What nurimkkot_next_cell, nurimkkot_next_place and nurimkkot_next_record say. */
enum {
    NURIMKKOT_GIVEN,  /* a record is given, and the number of the next one is in *at */
    NURIMKKOT_BROKEN, /* the record breaks its layout; *at stays */
    NURIMKKOT_END     /* there is no record with that number; *at stays */
};

/* Opening a sheet: the verdict of 10 to 14 that applies to an exercise, of 20 to 25 without 24 that applies to an answer, or 0. */
uint8_t nurimkkot_open_exercise(const uint8_t *exercise, size_t length);
uint8_t nurimkkot_open_answer(const uint8_t *answer, size_t length);

/* Reads the record with number *at; begin with 0. All fields are written in every case, with zeros where no record is given.
 *
 * A sheet that does not open is read all the same: its counts are taken as they stand, a byte of them that is missing reads as 0, and
 * a record that is not there whole is broken.
 *
 * cell       kind, flag and eleven signals, in the order of struct nurimkkot_cell.
 * place      x, y and LE. */
#define NURIMKKOT_CELL_FIELDS 13
#define NURIMKKOT_PLACE_FIELDS 3
uint8_t nurimkkot_next_cell(const uint8_t *exercise, size_t length, uint16_t *at, uint16_t cell[NURIMKKOT_CELL_FIELDS]);
uint8_t nurimkkot_next_place(const uint8_t *answer, size_t length, uint16_t *at, uint16_t place[NURIMKKOT_PLACE_FIELDS]);

/* The same as nurimkkot_next_cell, with the record in the struct that nurimkkot_check_lab and nurimkkot_write_exercise take. Where no
 * record is given, at the end too, the struct's 24 bytes are zeros: a loop over an array needs one element more than there are cells. */
uint8_t nurimkkot_next_record(const uint8_t *exercise, size_t length, uint16_t *at, struct nurimkkot_cell *cell);

/* Reads a settings sheet whole. Returns 0, or the number of 70 to 75 that applies. All numbers and all entries are written in every
 * case, with zeros where the sheet is refused.
 *
 * numbers    the version, the board's number (0 in version 1) and how many entries there are.
 * entries    the roles of each entry, as flags; 0 past the last entry. */
enum {
    NURIMKKOT_SETTINGS_VERSION,
    NURIMKKOT_SETTINGS_BOARD,
    NURIMKKOT_SETTINGS_ENTRIES,
    NURIMKKOT_SETTINGS_NUMBERS
};
uint8_t nurimkkot_read_settings(const uint8_t *settings, size_t length,
                                uint16_t numbers[NURIMKKOT_SETTINGS_NUMBERS], uint8_t entries[NURIMKKOT_MOST_ENTRIES]);

/* How many bytes a sheet of so many cells, or a settings sheet of a version and so many entries, has. */
#define NURIMKKOT_EXERCISE_LENGTH(cells) (9 + 24 * (size_t)(cells))
#define NURIMKKOT_ANSWER_LENGTH(cells) (11 + 4 * (size_t)(cells))
#define NURIMKKOT_SETTINGS_LENGTH(version, entries) (((version) == 2 ? 8 : 6) + (size_t)(entries))

/* Writes an exercise sheet of so many nets and these cells into a buffer of `room` bytes. What nurimkkot_next_record read can be
 * written as it is.
 *
 * Returns 0 and writes the sheet, its length in *length; the bytes of the buffer past the sheet stay. Or returns the first of these
 * that applies; then not one byte of the buffer is touched, and *length is 0:
 *    2  the buffer is shorter than the sheet, NURIMKKOT_EXERCISE_LENGTH(count);
 *   13  count is above 512, or nets above 1,024;
 *   15  a record breaks the layout;
 *   16  an output's net is already driven.
 * A sheet that was written passes 10 to 16 of the judge and reads back as these nets and cells. A sheet that passes 10 to 16 is
 * written again to the same bytes. */
uint8_t nurimkkot_write_exercise(uint16_t nets, const struct nurimkkot_cell *cells, size_t count,
                                 uint8_t *sheet, size_t room, size_t *length);

/* Writes an answer sheet in the same way: an apprentice's places, three numbers each, x, y and LE, as nurimkkot_next_place gives
 * them. `count` is the number of places, so there are 3 * count numbers.
 *
 *    2  the buffer is shorter than the sheet, NURIMKKOT_ANSWER_LENGTH(count);
 *   13  count is above 512;
 *   23  the apprentice is 0;
 *   26  x or y is above 31, or LE above 15, in some place.
 * 24 is not judged: no exercise is asked for. A sheet that was written passes 20 to 26 of the judge beside an exercise of as many
 * cells, and reads back as this apprentice and these places. An answer that passes 20 to 26 beside its exercise is written again to
 * the same bytes. */
uint8_t nurimkkot_write_answer(uint32_t apprentice, const uint16_t *places, size_t count,
                               uint8_t *sheet, size_t room, size_t *length);

/* Writes a settings sheet in the same way: its version, the board's number and the flags of `count` entries, as
 * nurimkkot_read_settings gives them. Here 2 comes last.
 *
 *   72  the version is neither 1 nor 2, or the version is 1 and the board's number is not 0;
 *   73  count is above 8;
 *   75  an entry has a flag above the five roles;
 *    2  the buffer is shorter than the sheet, NURIMKKOT_SETTINGS_LENGTH(version, count).
 * A sheet that was written passes 70 to 75 of the judge and reads back as this version, board and these entries. A sheet that passes
 * 70 to 75 is written again to the same bytes. */
uint8_t nurimkkot_write_settings(uint16_t version, uint16_t board, const uint8_t *entries, size_t count,
                                 uint8_t *sheet, size_t room, size_t *length);

#ifdef __cplusplus
}
#endif

#endif
