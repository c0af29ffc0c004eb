/* Marks classes as the tablet would: class SETTINGS EXERCISE ANSWER .. Class sheets of no answers up to more than there may be; 76 and 77 at
 * both sides of every limit and in their order. Every row is held against a judgement of that answer alone. The sheets, the rows and the
 * count of those filled stand between guards and then in blocks of their own, so that valgrind sees a byte too far. The answers of the files
 * are marked in classes, beside their own exercise and beside others'. */
#include "boards.h"
#include "classes.h"
#include "chance.h"
#include "../../c/sheet_files.h"

#define MOST NURIMKKOT_MOST_ANSWERS

/* So many guard bytes stand on both sides of a sheet, an odd number, so that the sheet is at an odd address; and so many guard rows on both
 * sides of the rows. */
#define GUARD 61
#define GUARD_ROWS 3

/* The longest answer that a class sheet has room for, and a byte and an answer more than the largest class sheet has. */
#define LONGEST 65535
#define ROOM (7 + (MOST + 1) * (2 + LONGEST) + 1)

/* A row is four 32-bit numbers without gaps, in an array too. */
#define FIELD(name, offset) \
    HOLDS(row_##name, offsetof(struct nurimkkot_row, name) == (offset) && sizeof((struct nurimkkot_row *)0)->name == sizeof(uint32_t))
struct behind_a_byte {
    uint8_t byte;
    struct nurimkkot_row row;
};
HOLDS(row_size, sizeof(struct nurimkkot_row) == 16);
HOLDS(row_alignment, offsetof(struct behind_a_byte, row) == 4);
FIELD(number, 0);
FIELD(cell, 4);
FIELD(lab, 8);
FIELD(apprentice, 12);

/* ---- one call */

/* What a call is given: three sheets, and so many rows. */
struct marking {
    struct sheet settings, exercise, class_sheet;
    size_t count;
};

/* What it has to return and to write. */
struct outcome {
    uint8_t number;
    size_t filled;
    struct nurimkkot_row rows[MOST];
};

/* The rows that the last call filled; how often each number was returned, and stood in a row. */
static struct nurimkkot_row given[MOST];
static long returned[256], in_rows[256];

static struct sheet sheet_of(const void *bytes, size_t length)
{
    struct sheet sheet;
    sheet.bytes = bytes;
    sheet.length = length;
    return sheet;
}

/* The answers on a class sheet by its layout in docs/SHEETS.md; gives how many there are, or -1 where it is none. */
static int answers_on(const struct sheet *sheet, struct sheet *answers)
{
    static const uint8_t head[5] = {'L', 'X', 'C', 1, 0};
    const uint8_t *bytes = sheet->bytes;
    size_t left, at = 7;
    int count, i;
    if (sheet->length < 7 || memcmp(bytes, head, sizeof head) != 0)
        return -1;
    count = bytes[5] + 256 * bytes[6];
    if (count > MOST)
        return -1;
    for (i = 0; i < count; i++) {
        left = sheet->length - at;
        if (left < 2 || left - 2 < bytes[at] + 256u * bytes[at + 1])
            return -1;
        answers[i] = sheet_of(bytes + at + 2, bytes[at] + 256u * bytes[at + 1]);
        at += 2 + answers[i].length;
    }
    return at == sheet->length ? count : -1;
}

/* The judge's first four numbers for one answer alone, with a route buffer and a list of tries of the right size. */
static struct nurimkkot_row row_of(const struct marking *m, const struct sheet *answer)
{
    static uint8_t route[NURIMKKOT_ROUTE_SIZE];
    static uint32_t tries[NURIMKKOT_TRIES];
    uint64_t numbers[NURIMKKOT_NUMBERS];
    uint8_t *own = copy_of(answer->bytes, answer->length);
    struct nurimkkot_row row;
    nurimkkot_judge(m->settings.bytes, m->settings.length, m->exercise.bytes, m->exercise.length, own, answer->length, route, sizeof route,
                    tries, NURIMKKOT_TRIES, numbers);
    row.number = (uint32_t)numbers[NURIMKKOT_NUMBER];
    row.cell = (uint32_t)numbers[NURIMKKOT_CELL];
    row.lab = (uint32_t)numbers[NURIMKKOT_LAB];
    row.apprentice = (uint32_t)numbers[NURIMKKOT_APPRENTICE];
    give_back(own, answer->bytes, answer->length);
    return row;
}

static struct outcome outcome_of(const struct marking *m)
{
    struct sheet answers[MOST];
    struct outcome outcome = {0, 0, {{0, 0, 0, 0}}};
    int count = answers_on(&m->class_sheet, answers), i;
    outcome.number = count < 0 ? 76 : m->count < (size_t)count ? 77 : 0;
    if (outcome.number != 0)
        return outcome;
    outcome.filled = (size_t)count;
    for (i = 0; i < count; i++)
        outcome.rows[i] = row_of(m, &answers[i]);
    return outcome;
}

/* A block of so many bytes of one value. */
static void *block_of(size_t size, uint8_t fill)
{
    void *block = malloc(size);
    if (block == NULL)
        exit(2);
    return memset(block, fill, size);
}

/* A copy of a sheet between guards. */
static uint8_t *between_guards(const struct sheet *sheet, uint8_t fill)
{
    uint8_t *copy = (uint8_t *)block_of(sheet->length + 2 * GUARD, fill) + GUARD;
    if (sheet->length > 0)
        memcpy(copy, sheet->bytes, sheet->length);
    return copy;
}

/* Sees that neither the copy nor its guards were written to, and gives the block back. */
static void only_read(uint8_t *copy, const struct sheet *sheet, uint8_t fill)
{
    uint8_t *wanted = between_guards(sheet, fill);
    expect(memcmp(copy - GUARD, wanted - GUARD, sheet->length + 2 * GUARD) == 0, "a sheet or its guards written to", (long)sheet->length);
    free(wanted - GUARD);
    free(copy - GUARD);
}

/* Sees that the rows between guard rows are as wanted. */
static void compare_rows(const struct marking *m, const struct outcome *wanted, const struct nurimkkot_row *rows, uint8_t fill)
{
    size_t all = m->count + 2 * GUARD_ROWS, last = GUARD_ROWS + wanted->filled, i;
    struct nurimkkot_row *same = block_of(all * sizeof *same, fill);
    memcpy(same + GUARD_ROWS, wanted->rows, wanted->filled * sizeof *same);
    for (i = 0; i < all && memcmp(rows + i, same + i, sizeof *same) == 0; i++)
        continue;
    expect(i >= GUARD_ROWS, "guard rows in front", (long)i);
    expect(i < GUARD_ROWS || i >= last, "a row and the judgement of its answer alone", (long)i - GUARD_ROWS);
    expect(i < last || i >= GUARD_ROWS + m->count, wanted->number ? "a row touched on a refusal" : "a spare row", (long)i - GUARD_ROWS);
    expect(i < GUARD_ROWS + m->count || i == all, "guard rows behind", (long)i - GUARD_ROWS);
    free(same);
}

/* Marks with guards around everything. */
static void mark_guarded(const char *what, const struct marking *m, const struct outcome *wanted, uint8_t fill)
{
    struct nurimkkot_row *rows = block_of((m->count + 2 * GUARD_ROWS) * sizeof *rows, fill);
    uint8_t *settings = between_guards(&m->settings, fill), *exercise = between_guards(&m->exercise, fill);
    uint8_t *class_sheet = between_guards(&m->class_sheet, fill), number;
    size_t filled[3], untouched;
    memset(filled, fill, sizeof filled);
    memset(&untouched, fill, sizeof untouched);
    number = nurimkkot_mark_class(settings, m->settings.length, exercise, m->exercise.length, class_sheet, m->class_sheet.length,
                                  rows + GUARD_ROWS, m->count, filled + 1);
    expect(number == wanted->number, what, number);
    expect(filled[1] == wanted->filled, "how many rows are filled", (long)filled[1]);
    expect(filled[0] == untouched && filled[2] == untouched, "guards around the count of rows filled", (long)m->count);
    compare_rows(m, wanted, rows, fill);
    only_read(settings, &m->settings, fill);
    only_read(exercise, &m->exercise, fill);
    only_read(class_sheet, &m->class_sheet, fill);
    free(rows);
}

/* Marks with a block of its own for each sheet, for the rows and for their count, and keeps the rows that were filled. */
static void mark_alone(const char *what, const struct marking *m, const struct outcome *wanted)
{
    size_t size = m->count * sizeof(struct nurimkkot_row), *filled = block_of(sizeof *filled, 0x3c);
    uint8_t *settings = copy_of(m->settings.bytes, m->settings.length), *exercise = copy_of(m->exercise.bytes, m->exercise.length);
    uint8_t *class_sheet = copy_of(m->class_sheet.bytes, m->class_sheet.length), number;
    struct nurimkkot_row *same = block_of(size + 1, 0x3c), *rows = copy_of(same, size);
    number = nurimkkot_mark_class(settings, m->settings.length, exercise, m->exercise.length, class_sheet, m->class_sheet.length, rows,
                                  m->count, filled);
    expect(number == wanted->number, what, number);
    expect(*filled == wanted->filled, "how many rows are filled, in a block of its own", (long)*filled);
    memcpy(same, wanted->rows, wanted->filled * sizeof *same);
    expect(memcmp(rows, same, size) == 0, "rows in a block of their own", (long)m->count);
    memcpy(given, rows, wanted->filled * sizeof *rows);
    give_back(settings, m->settings.bytes, m->settings.length);
    give_back(exercise, m->exercise.bytes, m->exercise.length);
    give_back(class_sheet, m->class_sheet.bytes, m->class_sheet.length);
    free(size ? (uint8_t *)rows : (uint8_t *)rows - BEHIND);
    free(same);
    free(filled);
}

/* The call returns this number and writes what it has to. Fills of which each byte is the other one's inverse let no byte that is written
 * pass unseen. */
static void marks(const char *what, const struct marking *m, uint8_t number)
{
    struct outcome wanted = outcome_of(m);
    size_t i;
    if (wanted.number != number) {
        expect(0, "the test itself expects another number", number);
        expect(0, what, wanted.number);
        return;
    }
    mark_guarded(what, m, &wanted, 0xa5);
    mark_guarded(what, m, &wanted, 0x5a);
    mark_alone(what, m, &wanted);
    returned[number]++;
    for (i = 0; i < wanted.filled; i++)
        in_rows[wanted.rows[i].number % 256]++;
}

/* A class sheet that is none: 76 with the rows that are lent, beside a settings sheet and an exercise that are refused, and with no rows. */
static void no_class(const char *what, struct marking m)
{
    marks(what, &m, 76);
    m.settings.length = m.exercise.length = 0;
    marks(what, &m, 76);
    m.count = 0;
    marks(what, &m, 76);
}

/* ---- class sheets */

/* Answers to the worked listing, good ones and one for each number of 20 to 26, and the row's number of each. */
#define ANSWERS 40
static uint8_t answer_bytes[ANSWERS][24];
static struct sheet answers[ANSWERS];
static const uint8_t NUMBERS[12] = {0, 26, 20, 0, 25, 21, 22, 23, 24, 25, 26, 20};

static void make_answers(void)
{
    static const size_t lengths[12] = {19, 19, 0, 19, 20, 19, 19, 19, 19, 18, 19, 10};
    /* The byte that is changed, and to what. */
    static const uint8_t changed[12][2] = {{0, 'L'}, {15, 32}, {0, 'L'}, {0, 'L'}, {0, 'L'}, {2, 'E'}, {4, 1}, {5, 0}, {9, 3}, {0, 'L'},
                                           {13, 16}, {0, 'L'}};
    size_t i;
    for (i = 0; i < ANSWERS; i++) {
        uint8_t *bytes = answer_bytes[i];
        memcpy(bytes, ANSWER, sizeof ANSWER);
        put_word(bytes + 5, i % 12 == 7 ? 0 : 65535 - i);
        put_word(bytes + 7, i % 12 == 7 ? 0 : 65535);
        bytes[11] = bytes[15] = (uint8_t)(i % 32);
        bytes[changed[i % 12][0]] = changed[i % 12][1];
        answers[i] = sheet_of(bytes, lengths[i % 12]);
    }
}

/* The class sheet of the case at hand. */
static uint8_t sheet[ROOM];

/* A class of these answers to the worked listing on document 01's board, with a row for each. */
static struct marking class_of(const struct sheet *of, size_t count)
{
    struct marking m;
    m.settings = sheet_of(HOUSE, sizeof HOUSE);
    m.exercise = sheet_of(EXERCISE, sizeof EXERCISE);
    m.class_sheet = sheet_of(sheet, put_class(sheet, of, count));
    m.count = count;
    return m;
}

/* Every row that the last call filled has this number, no cell, no LAB and no apprentice. */
static void every_row(const char *what, size_t filled, uint8_t number)
{
    size_t i;
    for (i = 0; i < filled; i++)
        expect(given[i].number == number && given[i].cell == NURIMKKOT_NONE && given[i].lab == NURIMKKOT_NONE && given[i].apprentice == 0,
               what, (long)given[i].number);
}

/* Class sheets of each size, with each number of rows up to two more than there are answers, and with many. */
static void sizes(void)
{
    static const size_t counts[] = {0, 1, 2, 18, 31, 32, 33, 34, ANSWERS};
    static const size_t many[] = {33, 64, 255, 256, 65535, 65536, 65537, 100000};
    size_t i, k;
    for (i = 0; i < sizeof counts / sizeof counts[0]; i++) {
        struct marking m = class_of(answers, counts[i]);
        size_t rows = counts[i] + 2;
        for (m.count = 0; m.count <= rows; m.count++)
            marks("by answers and rows", &m, counts[i] > MOST ? 76 : m.count < counts[i] ? 77 : 0);
        for (k = 0; k < sizeof many / sizeof many[0]; k++) {
            m.count = many[k];
            marks("many rows", &m, counts[i] > MOST ? 76 : 0);
        }
        for (k = 0; counts[i] <= MOST && k < counts[i]; k++) {
            int nobody = NUMBERS[k % 12] >= 20 && NUMBERS[k % 12] <= 23;
            expect(given[k].number == NUMBERS[k % 12], "the number of a row", (long)k);
            expect(given[k].apprentice == (nobody ? 0 : 4294967295u - k), "the apprentice of a row", (long)k);
        }
    }
}

/* A head cut short, and every value at each of its bytes. */
static void heads(void)
{
    struct marking m;
    size_t count, length, at;
    unsigned value;
    for (count = 0; count <= 2; count += 2) {
        for (length = 0; length < 7; length++) {
            m = class_of(answers, count);
            m.class_sheet.length = length;
            no_class("under 7 bytes", m);
        }
        for (at = 0; at < 7; at++)
            for (value = 0; value < 256; value++) {
                m = class_of(answers, count);
                if (sheet[at] == value) {
                    marks("the right byte", &m, 0);
                    continue;
                }
                sheet[at] = (uint8_t)value;
                no_class("a byte of the head", m);
            }
    }
}

/* The count is another than that of the answers that are there, or there are too many. */
static void counts(void)
{
    static const size_t others[] = {0, 1, 17, 19, 32, 33, 255, 256, 256 + 18, 4608, 32768 + 18, 65535};
    static const size_t all[] = {0, 1, 31, 32, 33, 34, 255, 256, 257, 256 + 32, 512, 65535};
    struct marking m;
    size_t i;
    for (i = 0; i < sizeof others / sizeof others[0]; i++) {
        m = class_of(answers, 18);
        put_word(sheet + 5, others[i]);
        m.count = 40;
        no_class("another count", m);
    }
    /* As many empty answers as the count says: a length of 0 each. */
    for (i = 0; i < sizeof all / sizeof all[0]; i++) {
        m = class_of(answers, 0);
        memset(sheet + 7, 0, 2 * all[i]);
        put_word(sheet + 5, all[i]);
        m.class_sheet.length = 7 + 2 * all[i];
        m.count = all[i];
        if (all[i] > MOST)
            no_class("too many empty answers", m);
        else
            marks("empty answers", &m, 0);
    }
}

/* A length that is another than its answer's, of each answer and of the last one: by one, by 255, by 256, with its bytes swapped, and as high
 * as can be. */
static void lengths(void)
{
    size_t i, k, at, last;
    for (i = 0, at = 7; i < 18; at += 2 + answers[i++].length) {
        size_t length = answers[i].length;
        const size_t others[] = {length + 1, length + 65535, length + 255, length + 65281, length + 256, length + 65280, 256 * length, LONGEST};
        for (k = 0; k < sizeof others / sizeof others[0]; k++)
            for (last = 0; last < 2; last++) {
                struct marking m = class_of(answers, last ? i + 1 : 18);
                put_word(sheet + at, others[k]);
                if (others[k] == length)
                    marks("the right length", &m, 0);
                else
                    no_class("another length", m);
            }
    }
}

/* Bytes behind the last answer: one, two that would be an empty answer, as many as leave the low 16 bits of the length as they are, a whole
 * answer more than the count says. */
static void left_over(void)
{
    static const size_t more[] = {1, 2, 3, 255, 256, 65535, 65536};
    static const size_t of[] = {0, 1, 18, 32};
    struct marking m;
    size_t i, k;
    for (i = 0; i < sizeof of / sizeof of[0]; i++) {
        for (k = 0; k < sizeof more / sizeof more[0]; k++) {
            m = class_of(answers, of[i]);
            memset(sheet + m.class_sheet.length, 0, more[k]);
            m.class_sheet.length += more[k];
            no_class("bytes left over", m);
        }
        m = class_of(answers, of[i] + 1);
        put_word(sheet + 5, of[i]);
        no_class("an answer left over", m);
    }
}

/* A class sheet cut at every place, between guards; and where the rest of it stands behind the cut. */
static void cut(void)
{
    static const size_t of[] = {1, 18, 32};
    struct nurimkkot_row rows[MOST], same[MOST];
    size_t i, length, whole;
    memset(rows, 0xa5, sizeof rows);
    memset(same, 0xa5, sizeof same);
    for (i = 0; i < sizeof of / sizeof of[0]; i++) {
        struct marking m = class_of(answers, of[i]);
        whole = m.class_sheet.length;
        for (length = 0; length < whole; length++) {
            size_t filled = 99;
            m.class_sheet.length = length;
            no_class("cut short", m);
            expect(nurimkkot_mark_class(HOUSE, sizeof HOUSE, EXERCISE, sizeof EXERCISE, sheet, length, rows, MOST, &filled) == 76,
                   "cut short, the rest behind it", (long)length);
            expect(filled == 0 && memcmp(rows, same, sizeof rows) == 0, "what is written of a sheet cut short", (long)length);
        }
    }
}

/* 77 comes before a settings sheet and an exercise that are refused. */
static void too_few_rows(void)
{
    static const size_t of[] = {1, 2, 18, 32};
    size_t i;
    int bad;
    for (i = 0; i < sizeof of / sizeof of[0]; i++)
        for (bad = 0; bad < 4; bad++) {
            struct marking m = class_of(answers, of[i]);
            m.settings.length -= (size_t)(bad & 1);
            m.exercise.length -= (size_t)(bad >> 1);
            m.count = of[i] - 1;
            marks("a row too few", &m, 77);
            m.count = 0;
            marks("no rows", &m, 77);
        }
}

/* A settings sheet that is refused shows in every row, before an exercise that is refused too, and with no answers it shows nowhere. */
static void by_settings(const void *bytes, size_t length, uint8_t number)
{
    size_t of, cut_off;
    for (of = 0; of <= 12; of += 12)
        for (cut_off = 0; cut_off < 2; cut_off++) {
            struct marking m = class_of(answers, of);
            m.settings = sheet_of(bytes, length);
            m.exercise.length -= cut_off;
            marks("by settings", &m, 0);
            if (number != 0 || cut_off != 0)
                every_row("a settings sheet refused in every row", of, number != 0 ? number : 14);
        }
}

static void settings(void)
{
    uint8_t damaged[sizeof HOUSE];
    size_t i;
    for (i = 0; i < BOARD_COUNT; i++)
        by_settings(BOARDS[i].bytes, BOARDS[i].length, BOARDS[i].number);
    by_settings(SECOND, sizeof SECOND, 0);
    for (i = 0; i < 8 * sizeof HOUSE; i++) {
        memcpy(damaged, HOUSE, sizeof HOUSE);
        damaged[i / 8] ^= (uint8_t)(1u << (i % 8));
        by_settings(damaged, sizeof damaged, settings_number(damaged, sizeof damaged));
    }
}

/* The same for an exercise: cut short at every length, and with each bit the other way. */
static void exercises(void)
{
    uint8_t damaged[sizeof EXERCISE];
    size_t of, i;
    for (of = 0; of <= 12; of += 12) {
        for (i = 0; i < sizeof EXERCISE; i++) {
            struct marking m = class_of(answers, of);
            m.exercise.length = i;
            marks("an exercise cut short", &m, 0);
            every_row("an exercise cut short in every row", of, i < 9 ? 10 : 14);
        }
        for (i = 0; i < 8 * sizeof EXERCISE; i++) {
            struct marking m = class_of(answers, of);
            memcpy(damaged, EXERCISE, sizeof EXERCISE);
            damaged[i / 8] ^= (uint8_t)(1u << (i % 8));
            m.exercise = sheet_of(damaged, sizeof damaged);
            marks("an exercise with one wrong bit", &m, 0);
        }
    }
}

/* Empty answers, alone and between others: 20 where the exercise is good. */
static void empty_answers(void)
{
    struct sheet some[MOST];
    struct marking m;
    size_t i, last;
    for (i = 0; i < MOST; i++)
        some[i] = sheet_of(NULL, 0);
    m = class_of(some, MOST);
    marks("empty answers alone", &m, 0);
    every_row("an empty answer", MOST, 20);
    m.exercise.length = 0;
    marks("empty answers and no exercise", &m, 0);
    every_row("an empty answer and no exercise", MOST, 10);
    for (last = 0; last < 2; last++) {
        for (i = 0; i < MOST; i++)
            some[i] = i % 2 == last ? answers[0] : sheet_of(NULL, 0);
        m = class_of(some, MOST);
        marks("empty answers between others", &m, 0);
        for (i = 0; i < MOST; i++)
            expect(given[i].number == (i % 2 == last ? 0 : 20), "an answer beside an empty one", (long)i);
    }
}

/* An answer of each of these lengths between two good ones, and no byte more or less; then as many of the longest as there may be. */
static void long_answers(void)
{
    static const size_t long_ones[] = {254, 255, 256, 257, 2059, 2060, 32767, 32768, 65279, 65280, 65534, LONGEST};
    static uint8_t bytes[LONGEST];
    struct sheet all[MOST], three[3];
    struct marking m;
    size_t i;
    memcpy(bytes, ANSWER, sizeof ANSWER);
    for (i = 0; i < sizeof long_ones / sizeof long_ones[0]; i++) {
        three[0] = answers[3];
        three[1] = sheet_of(bytes, long_ones[i]);
        three[2] = answers[0];
        m = class_of(three, 3);
        marks("a long answer between others", &m, 0);
        expect(given[0].number == 0 && given[1].number == 25 && given[1].apprentice == 7 && given[2].number == 0, "a long answer", (long)i);
        m.class_sheet.length--;
        no_class("a long answer, and the last cut short", m);
        m = class_of(three, 2);
        m.class_sheet.length--;
        no_class("a long answer cut short", m);
    }
    for (i = 0; i < MOST; i++)
        all[i] = sheet_of(bytes, LONGEST);
    m = class_of(all, MOST);
    expect(m.class_sheet.length == 2097191, "the largest class sheet", (long)m.class_sheet.length);
    marks("the largest class sheet", &m, 0);
    for (i = 0; i < MOST; i++)
        expect(given[i].number == 25 && given[i].apprentice == 7, "a row of the largest class sheet", (long)i);
    m.class_sheet.length++;
    marks("a byte more than the largest class sheet", &m, 76);
}

/* Two answers with one length in front: one answer, too long. Its second part is no answer of its own. */
static void two_as_one(void)
{
    struct marking m = class_of(answers, 12);
    put_word(sheet + 7, answers[0].length + 2 + answers[1].length);
    put_word(sheet + 5, 11);
    marks("two answers as one", &m, 0);
    expect(given[0].number == 25 && given[1].number == NUMBERS[2] && given[10].number == NUMBERS[11], "rows of two answers as one", 0);
}

/* What is only read may overlap: the exercise and the settings sheet stand on the class sheet; then the class sheet is all three. */
static void overlaps(void)
{
    struct nurimkkot_row rows[3];
    struct sheet three[3];
    size_t e = sizeof EXERCISE, length, filled;
    uint8_t number;
    three[0] = sheet_of(HOUSE, sizeof HOUSE);
    three[1] = answers[0];
    three[2] = sheet_of(EXERCISE, e);
    length = put_class(sheet, three, 3);
    number = nurimkkot_mark_class(sheet + 9, sizeof HOUSE, sheet + length - e, e, sheet, length, rows, 3, &filled);
    expect(number == 0 && filled == 3 && rows[0].number == 21 && rows[1].number == 0 && rows[2].number == 21, "sheets on the class sheet",
           number);
    number = nurimkkot_mark_class(sheet, length, sheet, length, sheet, length, rows, 3, &filled);
    expect(number == 0 && filled == 3 && rows[0].number == 71 && rows[1].number == 71 && rows[2].number == 71, "the class sheet as all three",
           number);
}

/* What is only read may stand in memory that can't be written: these three sheets are constants. */
static void constants(void)
{
    static const uint8_t two[7 + 2 + 19 + 2] = {
        'L', 'X', 'C', 1, 0, 2, 0,
        19, 0, 'L', 'X', 'A', 1, 0, 7, 0, 0, 0, 2, 0, 2, 1, 0, 0, 2, 1, 0, 0,
        0, 0,
    };
    struct nurimkkot_row rows[2];
    size_t filled;
    uint8_t number = nurimkkot_mark_class(HOUSE, sizeof HOUSE, EXERCISE, sizeof EXERCISE, two, sizeof two, rows, 2, &filled);
    expect(number == 0 && filled == 2 && rows[0].number == 0 && rows[0].apprentice == 7 && rows[1].number == 20, "a constant class sheet",
           number);
}

/* Nothing is kept: a class gets the same rows after other calls of each sort. */
static void in_a_row(void)
{
    struct nurimkkot_row first[18];
    struct marking m;
    int round;
    memset(first, 0, sizeof first);
    for (round = 0; round < 3; round++) {
        m = class_of(answers, 18);
        marks("the same class", &m, 0);
        if (round == 0)
            memcpy(first, given, sizeof first);
        expect(memcmp(first, given, sizeof first) == 0, "the same rows in a row", round);
        m.settings.length = 0;
        marks("no settings sheet in between", &m, 0);
        m.exercise.length = 0;
        marks("no sheets in between", &m, 0);
        m.count = 0;
        marks("77 in between", &m, 77);
        m.class_sheet.length--;
        marks("76 in between", &m, 76);
        m = class_of(answers + 5, 30);
        marks("another class in between", &m, 0);
    }
}

/* ---- class sheets that look random, and those of the samples */

/* Classes of any of the answers; some with another byte, cut or longer, or without enough rows. */
static void random_classes(void)
{
    int round;
    for (round = 0; round < 3000; round++) {
        struct sheet some[MOST];
        size_t count = chance(chance(4) ? 6 : MOST + 1), i;
        struct marking m;
        for (i = 0; i < count; i++)
            some[i] = answers[chance(ANSWERS)];
        m = class_of(some, count);
        if (chance(3) == 0)
            sheet[chance((uint32_t)m.class_sheet.length)] = (uint8_t)chance(chance(2) ? 256 : 24);
        if (chance(3) == 0)
            sheet[3 + chance(6)] = (uint8_t)chance(3);
        if (chance(6) == 0)
            m.class_sheet.length -= chance(4);
        if (chance(6) == 0)
            m.count = chance(MOST + 3);
        marks("a random class", &m, outcome_of(&m).number);
    }
}

/* The sheets of the files: a folder's own answers, and some of the folders behind it, beside its exercise, on its own board and on the
 * second one. Gives how many exercises there were. */
#define FILES 1024
#define STRANGERS 6

static int samples(int count, char **paths)
{
    static uint8_t files[FILES][ANSWER_ROOM], board[SETTINGS_ROOM], exercise[EXERCISE_ROOM];
    static struct sheet all[FILES], some[MOST];
    int n = count / 3, i, k, next, folders = 0;
    expect(n <= FILES, "room for all files", n);
    for (i = 0; i < n && i < FILES; i++)
        all[i] = sheet_of(files[i], read_file(paths[3 * i + 2], 1, files[i], sizeof files[i]));
    for (i = 0; i < n && n <= FILES; i = next) {
        struct marking m;
        for (next = i + 1; next < n && strcmp(paths[3 * i + 1], paths[3 * next + 1]) == 0; next++)
            continue;
        for (k = 0; k < next - i + STRANGERS && k < MOST; k++)
            some[k] = all[(i + k) % n];
        m = class_of(some, (size_t)k);
        m.exercise = sheet_of(exercise, read_file(paths[3 * i + 1], 1, exercise, sizeof exercise));
        m.settings = sheet_of(board, read_file(paths[3 * i], 0, board, sizeof board));
        marks(paths[3 * i + 1], &m, 0);
        m.settings = sheet_of(SECOND, sizeof SECOND);
        marks(paths[3 * i + 1], &m, 0);
        folders++;
    }
    return folders;
}

/* Every number was returned, and every verdict but 1 and 3 stood in some row, and no other number. */
static void every_number(void)
{
    static const uint8_t ends[][2] = {{0, 0}, {10, 16}, {20, 26}, {30, 35}, {40, 44}, {50, 51}, {60, 65}, {70, 75}};
    unsigned number;
    size_t i;
    for (number = 0; number < 256; number++) {
        int verdict = 0;
        for (i = 0; i < sizeof ends / sizeof ends[0]; i++)
            verdict = verdict || (number >= ends[i][0] && number <= ends[i][1]);
        expect((in_rows[number] > 0) == verdict, "the numbers in rows", (long)number);
        expect((returned[number] > 0) == (number == 0 || number == 76 || number == 77), "the numbers returned", (long)number);
    }
}

int main(int argc, char **argv)
{
    int folders;
    make_answers();
    sizes();
    heads();
    counts();
    lengths();
    left_over();
    cut();
    too_few_rows();
    settings();
    exercises();
    empty_answers();
    long_answers();
    two_as_one();
    overlaps();
    constants();
    in_a_row();
    random_classes();
    folders = samples(argc - 1, argv + 1);
    expect(folders >= 100, "enough exercises", folders);
    every_number();
    if (failures == 0)
        printf("C: classes marked as single calls would, beside %d exercises; %ld classes, %ld refused\n", folders,
               returned[0] + returned[76] + returned[77], returned[76] + returned[77]);
    return failures != 0;
}
