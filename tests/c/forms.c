/* Calls the readers and the check of one LAB as the tablet would: sheets cut short at every length, lists that keep and that break each
 * rule of the list check, each in several orders, on several boards, guard bytes around what is written, and a block of its own for each
 * sheet and list so that valgrind sees a read past the end. */
#include "boards.h"
#include "records.h"
#include "sharing.h"

static const uint8_t NO_ROUTE[8] = {255, 255, 255, 255, 255, 255, 255, 255};

enum { DATAIN, CLK, ENA, ACLR, SCLR, SLOAD, SDATA, REGOUT };

/* What opening a sheet gives. */
static uint8_t opening(int of_answer, const uint8_t *sheet, size_t length)
{
    uint8_t *own = copy_of(sheet, length);
    uint8_t number = of_answer ? nurimkkot_open_answer(own, length) : nurimkkot_open_exercise(own, length);
    give_back(own, sheet, length);
    return number;
}

/* One call of a reader with guards around the fields and around the number; gives what it says. A cell is read as a struct too. */
static uint8_t next(int of_answer, const uint8_t *sheet, size_t length, uint16_t *at, uint16_t *fields)
{
    uint16_t guarded[NURIMKKOT_CELL_FIELDS + 2], number[3] = {0x5a5a, *at, 0x5a5a}, stood = *at;
    size_t n = of_answer ? NURIMKKOT_PLACE_FIELDS : NURIMKKOT_CELL_FIELDS, i;
    struct nurimkkot_cell record;
    uint8_t *own = copy_of(sheet, length);
    uint8_t said;
    memset(guarded, 0x5a, sizeof guarded);
    said = of_answer ? nurimkkot_next_place(own, length, number + 1, guarded + 1) : nurimkkot_next_cell(own, length, number + 1, guarded + 1);
    *at = number[1];
    expect(guarded[0] == 0x5a5a && guarded[n + 1] == 0x5a5a, "guards around the fields", (long)n);
    expect(number[0] == 0x5a5a && number[2] == 0x5a5a, "guards around the number", stood);
    expect(*at == (said == NURIMKKOT_GIVEN ? stood + 1 : stood), "where the reader goes on", stood);
    for (i = 0; said != NURIMKKOT_GIVEN && i < n; i++)
        expect(guarded[1 + i] == 0, "fields of no record", (long)i);
    memcpy(fields, guarded + 1, 2 * n);
    give_back(own, sheet, length);
    if (!of_answer)
        expect(record_as_cell(sheet, length, stood, &record) == said, "a cell as a struct", stood);
    return said;
}

/* Two records in a sheet with this head and record size, cut short at every length: opening gives `early` while the head is cut off and
 * `late` while a record is. */
static void cut_short(int of_answer, const uint8_t *sheet, size_t head, size_t record, uint8_t early, uint8_t late,
                      const uint16_t *first, const uint16_t *second)
{
    uint16_t fields[NURIMKKOT_CELL_FIELDS], at;
    size_t n = of_answer ? NURIMKKOT_PLACE_FIELDS : NURIMKKOT_CELL_FIELDS, length;
    for (length = 0; length <= head + 2 * record; length++) {
        size_t whole = length < head + record ? 0 : length < head + 2 * record ? 1 : 2, k;
        expect(opening(of_answer, sheet, length) == (length < head ? early : whole < 2 ? late : 0), "opening a sheet", (long)length);
        at = 0;
        for (k = 0; k < whole; k++) {
            expect(next(of_answer, sheet, length, &at, fields) == NURIMKKOT_GIVEN, "a record", (long)length);
            expect(memcmp(fields, k ? second : first, 2 * n) == 0, "its fields", (long)k);
        }
        /* The count is the head's last two bytes, 2 and 0, and a missing byte reads as 0: it is 2 as soon as the first of them is there. */
        for (k = 0; k < 2; k++)
            expect(next(of_answer, sheet, length, &at, fields) == (length < head - 1 || whole == 2 ? NURIMKKOT_END : NURIMKKOT_BROKEN),
                   "after the last record", (long)length);
    }
}

/* Of a 16-bit count one byte is there: it reads as that byte. The exercise has 8 bytes, the answer 10; both counts read as 3. */
static void half_count(void)
{
    static const uint8_t exercise[8] = {'L', 'X', 'E', 1, 0, 4, 0, 3}, answer[10] = {'L', 'X', 'A', 1, 0, 7, 0, 0, 0, 3};
    uint16_t fields[NURIMKKOT_CELL_FIELDS], i, at;
    expect(opening(0, exercise, sizeof exercise) == 10, "an exercise of 8 bytes", 10);
    expect(opening(1, answer, sizeof answer) == 20, "an answer of 10 bytes", 20);
    for (i = 0; i < 6; i++) {
        at = i;
        expect(next(0, exercise, sizeof exercise, &at, fields) == (i < 3 ? NURIMKKOT_BROKEN : NURIMKKOT_END), "half a cell count", i);
        at = i;
        expect(next(1, answer, sizeof answer, &at, fields) == (i < 3 ? NURIMKKOT_BROKEN : NURIMKKOT_END), "half a place count", i);
    }
}

static void readers(void)
{
    static const uint16_t cells[2][NURIMKKOT_CELL_FIELDS] = {
        {2, 0, 4, 6, 0, 8, 0, 0, 0, 10, 0, 0, 0},
        {1, 0, 10, 0, 0, 0, 0, 4, 0, 0, 0, 0, 0},
    };
    static const uint16_t place[NURIMKKOT_PLACE_FIELDS] = {2, 1, 0};
    uint16_t fields[NURIMKKOT_CELL_FIELDS], at;
    uint8_t damaged[sizeof EXERCISE];

    cut_short(0, EXERCISE, 9, 24, 10, 14, cells[0], cells[1]);
    cut_short(1, ANSWER, 11, 4, 20, 25, place, place);
    half_count();
    memcpy(damaged, EXERCISE, sizeof EXERCISE);
    damaged[0] = 'l';
    at = 0;
    expect(opening(0, damaged, sizeof damaged) == 11, "a wrong mark", 0);
    expect(next(0, damaged, sizeof damaged, &at, fields) == NURIMKKOT_GIVEN && memcmp(fields, cells[0], sizeof cells[0]) == 0,
           "a cell after a wrong mark", 0);
    damaged[9] = 3;
    at = 0;
    expect(next(0, damaged, sizeof damaged, &at, fields) == NURIMKKOT_BROKEN, "a cell of kind 3", 0);
    at = 1;
    expect(next(0, damaged, sizeof damaged, &at, fields) == NURIMKKOT_GIVEN, "the cell after it", 1);
    at = 65535;
    expect(next(0, EXERCISE, sizeof EXERCISE, &at, fields) == NURIMKKOT_END, "far past the end", 65535);
}

/* The settings sheet to check lists by. */
static const void *board = HOUSE;
static size_t board_length = sizeof HOUSE;

static void check_by(const void *settings, size_t length)
{
    board = settings;
    board_length = length;
}

/* One call of the check of one LAB, with guards around the route bytes. */
static void check_once(const char *what, const struct nurimkkot_cell *cells, size_t count, uint8_t number, const uint8_t *route)
{
    uint8_t guarded[24];
    struct nurimkkot_cell *own = copy_of(cells, count * sizeof *cells);
    uint8_t *settings = copy_of(board, board_length);
    size_t i;
    memset(guarded, 0xa5, sizeof guarded);
    expect(nurimkkot_check_lab(settings, board_length, own, count, guarded + 8) == number, what, number);
    expect(memcmp(guarded + 8, route, 8) == 0, what, -1);
    for (i = 0; i < 8; i++)
        expect(guarded[i] == 0xa5 && guarded[16 + i] == 0xa5, "guards around the route bytes", (long)i);
    give_back(settings, board, board_length);
    give_back(own, cells, count * sizeof *cells);
}

/* The list from each of its cells on, and each of these backwards: the order does not matter. */
static void check(const char *what, const struct nurimkkot_cell *cells, size_t count, uint8_t number, const uint8_t *route)
{
    static struct nurimkkot_cell forwards[40], backwards[40];
    size_t first, i;
    check_once(what, cells, count, number, route);
    for (first = 0; first < count; first++) {
        for (i = 0; i < count; i++)
            forwards[i] = backwards[count - 1 - i] = cells[(first + i) % count];
        check_once(what, forwards, count, number, route);
        check_once(what, backwards, count, number, route);
    }
}

/* A register with signals at these ports and 0 at the others. */
static struct nurimkkot_cell reg(uint16_t clk, uint16_t ena, uint16_t aclr, uint16_t regout)
{
    struct nurimkkot_cell c = {2, 0, {0}};
    c.signals[CLK] = clk;
    c.signals[ENA] = ena;
    c.signals[ACLR] = aclr;
    c.signals[REGOUT] = regout;
    return c;
}

/* A cell with a signal at one port more. */
static struct nurimkkot_cell with(struct nurimkkot_cell c, int port, uint16_t signal)
{
    c.signals[port] = signal;
    return c;
}

/* Cell i of an exercise, from the reader. */
static struct nurimkkot_cell cell_of(const uint8_t *exercise, size_t length, uint16_t i)
{
    struct nurimkkot_cell c;
    expect(record_as_cell(exercise, length, i, &c) == NURIMKKOT_GIVEN, "a cell for a list", i);
    return c;
}

static int little_endian(void)
{
    static const uint16_t one = 1;
    return *(const uint8_t *)&one == 1;
}

/* Rules 30 to 35 on one register: 18 where one is broken, and what the same register gets without the fault. */
static void register_rules(void)
{
    static const uint8_t clk[8] = {0, 255, 255, 255, 255, 255, 255, 255};
    static const uint8_t clk_ena[8] = {0, 255, 2, 255, 255, 255, 255, 255};
    static const uint8_t clk_sclr[8] = {0, 255, 255, 255, 255, 255, 4, 255};
    static const uint8_t clk_sload[8] = {0, 255, 255, 255, 255, 255, 255, 3};
    static const int data[2] = {DATAIN, SDATA};
    struct nurimkkot_cell open = reg(0, 0, 0, 20), used = reg(4, 0, 0, 20), cell;
    int i;

    cell = reg(4, 0, 0, 0);
    check("30: clk without regout", &cell, 1, 18, NO_ROUTE);
    check("clk with regout", &used, 1, 0, clk);
    cell = with(open, SCLR, 6);
    check("31: sclr without clk", &cell, 1, 18, NO_ROUTE);
    cell = with(used, SCLR, 6);
    check("sclr with clk", &cell, 1, 0, clk_sclr);
    cell = with(with(open, SLOAD, 6), SDATA, 8);
    check("32: sload without clk", &cell, 1, 18, NO_ROUTE);
    cell = with(used, SLOAD, 6);
    check("33: sload without sdata", &cell, 1, 18, NO_ROUTE);
    cell = with(cell, SDATA, 8);
    check("sload with clk and sdata", &cell, 1, 0, clk_sload);
    cell = with(open, ENA, 6);
    check("34: ena without clk", &cell, 1, 18, NO_ROUTE);
    cell = with(used, ENA, 6);
    check("ena with clk", &cell, 1, 0, clk_ena);
    for (i = 0; i < 2; i++) {
        cell = with(used, data[i], 1);
        check("35: datain or sdata is GND", &cell, 1, 18, NO_ROUTE);
        cell = with(used, data[i], 7);
        check("35: datain or sdata is inverted", &cell, 1, 18, NO_ROUTE);
        cell = with(used, data[i], 2);
        check("datain or sdata is VCC", &cell, 1, 0, clk);
        cell = with(used, data[i], 6);
        check("datain or sdata is a net", &cell, 1, 0, clk);
    }
}

/* Source 000, table 4: sload and sclr of the second register, beside (A, B) on the first; each "unconnected or GND" is both. */
static void table4(void)
{
    enum { A = 10, B = 12, C = 14, OPEN = 0, GND = 1 };
    static const struct {
        uint16_t sload, sclr;
        uint8_t number;
    } lines[11] = {{A, B, 0}, {A, C, 63}, {B, A, 63}, {OPEN, OPEN, 0}, {OPEN, GND, 0}, {GND, OPEN, 0}, {GND, GND, 0},
                   {A, OPEN, 63}, {A, GND, 63}, {OPEN, B, 63}, {GND, B, 63}};
    static const uint8_t route[8] = {0, 255, 255, 255, 255, 255, 4, 3};
    struct nurimkkot_cell cells[2];
    int i, first;
    for (i = 0; i < 11; i++)
        for (first = 0; first < 2; first++) {
            cells[first] = with(with(with(reg(4, 0, 0, 20), SLOAD, A), SCLR, B), SDATA, 2);
            cells[1 - first] = with(with(with(reg(4, 0, 0, 22), SLOAD, lines[i].sload), SCLR, lines[i].sclr), SDATA, 2);
            check("table 4", cells, 2, lines[i].number, lines[i].number ? NO_ROUTE : route);
        }
    cells[0] = with(with(with(reg(4, 0, 0, 20), SLOAD, 2), SCLR, B), SDATA, 2);
    cells[1] = with(reg(4, 0, 0, 22), SCLR, B);
    check("sload at VCC and open beside one sclr", cells, 2, 63, NO_ROUTE);
}

static void lists(void)
{
    static const uint8_t listing[8] = {0, 255, 255, 255, 1, 255, 255, 255};
    static const uint8_t p10[8] = {0, 2, 255, 255, 1, 4, 255, 255};
    static const uint8_t p12[8] = {0, 2, 255, 255, 1, 4, 5, 3};
    static struct nurimkkot_cell cells[40];
    size_t i, k;

    expect(sizeof(struct nurimkkot_cell) == 24, "a cell has 24 bytes", sizeof(struct nurimkkot_cell));
    check("no cells", cells, 0, 0, NO_ROUTE);
    for (i = 0; i < 2; i++)
        cells[i] = cell_of(EXERCISE, sizeof EXERCISE, (uint16_t)i);
    check("the worked listing", cells, 2, 0, listing);
    if (little_endian())
        expect(memcmp(cells, EXERCISE + 9, 48) == 0, "records with the bytes of the sheet", 48);

    memset(cells, 0, sizeof cells);
    for (i = 0; i < 33; i++)
        cells[i].kind = 1;
    check("32 cells", cells, 32, 0, NO_ROUTE);
    check("33 cells", cells, 33, 18, NO_ROUTE);
    cells[7].signals[0] = 2051;
    check("net 1023 inverted", cells, 32, 0, NO_ROUTE);
    cells[7].signals[0] = 2052;
    check("net 1024", cells, 32, 18, NO_ROUTE);
    cells[7].signals[0] = 3;
    check("code 3", cells, 32, 18, NO_ROUTE);

    register_rules();
    cells[0] = reg(4, 0, 0, 20);
    cells[1] = reg(5, 0, 0, 22);
    cells[2] = reg(0, 0, 0, 24);
    check("clocks A, inverse of A and GND", cells, 3, 60, NO_ROUTE);
    cells[2] = reg(6, 0, 0, 24);
    check("clocks of two nets, three signals", cells, 3, 60, NO_ROUTE);
    cells[0] = reg(4, 6, 0, 20);
    cells[1] = reg(4, 8, 0, 22);
    cells[2] = reg(10, 6, 0, 24);
    check("two clocks, two enables, three pairs", cells, 3, 61, NO_ROUTE);
    for (i = 0; i < 3; i++)
        cells[i] = reg(4, 0, (uint16_t)(10 + 2 * i), (uint16_t)(20 + 2 * i));
    check("three aclr", cells, 3, 62, NO_ROUTE);
    cells[1] = reg(4, 0, 11, 22);
    check("aclr of two nets, three signals", cells, 3, 62, NO_ROUTE);
    for (i = 0; i < 2; i++)
        cells[i] = with(reg(4, 0, 0, (uint16_t)(20 + 2 * i)), SCLR, (uint16_t)(10 + 2 * i));
    check("two sclr", cells, 2, 63, NO_ROUTE);
    for (i = 0; i < 2; i++)
        cells[i] = with(with(reg(4, 0, 0, (uint16_t)(20 + 2 * i)), SLOAD, (uint16_t)(10 + 2 * i)), SDATA, 2);
    check("two sload", cells, 2, 63, NO_ROUTE);
    table4();
    cells[0] = reg(4, 0, 8, 20);
    cells[1] = reg(6, 0, 10, 22);
    check("P10", cells, 2, 0, p10);
    cells[0] = reg(4, 8, 12, 20);
    cells[1] = reg(6, 10, 14, 22);
    check("P11", cells, 2, 65, NO_ROUTE);
    cells[0] = with(with(with(reg(4, 0, 8, 20), SCLR, 12), SLOAD, 14), SDATA, 2);
    cells[1] = reg(6, 0, 10, 22);
    check("P12", cells, 2, 0, p12);
    cells[0] = with(reg(4, 0, 8, 20), SCLR, 12);
    cells[1] = with(with(reg(6, 0, 10, 22), SLOAD, 14), SDATA, 2);
    check("P12 with sclr and sload on two registers", cells, 2, 63, NO_ROUTE);

    for (k = 38; k <= 39; k++) {
        memset(cells, 0, sizeof cells);
        for (i = 0; i < 10; i++)
            cells[i].kind = 1;
        for (i = 0; i < k; i++)
            cells[i / 4].signals[i % 4] = (uint16_t)(4 + 2 * i);
        check("38 and 39 nets in", cells, 10, k == 38 ? 0 : 64, NO_ROUTE);
    }
}

/* Lists beside a settings sheet that is refused with this number: 18 comes before it, and it comes before 60 to 65. */
static void no_board(const char *what, uint8_t number)
{
    static struct nurimkkot_cell cells[33];
    size_t i;
    memset(cells, 0, sizeof cells);
    for (i = 0; i < 33; i++)
        cells[i].kind = 1;
    check(what, cells, 0, number, NO_ROUTE);
    check_once("18 for 33 cells before the board", cells, 33, 18, NO_ROUTE);
    cells[31].signals[0] = 3;
    check_once("18 for code 3 before the board", cells, 32, 18, NO_ROUTE);
    cells[0] = reg(4, 0, 0, 0);
    check("18 for rule 30 before the board", cells, 1, 18, NO_ROUTE);
    cells[0] = reg(4, 0, 0, 20);
    check(what, cells, 1, number, NO_ROUTE);
    cells[1] = reg(5, 0, 0, 22);
    cells[2] = reg(0, 0, 0, 24);
    check("the board before 60", cells, 3, number, NO_ROUTE);
    cells[0] = reg(4, 8, 12, 20);
    cells[1] = reg(6, 10, 14, 22);
    check("the board before 65", cells, 2, number, NO_ROUTE);
}

/* Two registers with the first so many of two clk, two ena, two aclr, sclr and sload as nets, all different or all the same one, which two of a
 * role have in both polarities. GND and VCC need no entry. */
static void with_needs(struct nurimkkot_cell *cells, int needs, int one_net)
{
    static const int port[8] = {CLK, CLK, ENA, ENA, ACLR, ACLR, SCLR, SLOAD};
    int i;
    for (i = 0; i < 2; i++)
        cells[i] = with(reg(1, 2, 1, (uint16_t)(100 + 2 * i)), SDATA, 2);
    for (i = 0; i < needs; i++)
        cells[i < 6 ? i % 2 : 0].signals[port[i]] = (uint16_t)(4 + (one_net ? i % 2 : 2 * i));
}

/* So many needs on a board of so many entries that serve everything: a need gets the entry of its own number, where there are enough, and with
 * one net for all each gets entry 0. The entries past the last one serve nothing. */
static void needs_and_entries(void)
{
    uint8_t settings[NURIMKKOT_MOST_SETTINGS] = {'L', 'X', 'T', 1, 0, 0}, route[8];
    struct nurimkkot_cell cells[2];
    int needs, entries, version, one_net, i;
    memset(settings + 6, 31, 10);
    for (version = 1; version <= 2; version++)
        for (entries = 0; entries <= 8; entries++)
            for (needs = 0; needs <= 8; needs++)
                for (one_net = 0; one_net < 2; one_net++) {
                    int enough = (one_net && needs > 0 ? 1 : needs) <= entries;
                    settings[3] = (uint8_t)version;
                    settings[5] = (uint8_t)entries;
                    with_needs(cells, needs, one_net);
                    for (i = 0; i < 8; i++)
                        route[i] = (uint8_t)(i >= needs || !enough ? 255 : one_net ? 0 : i);
                    check_by(settings, (size_t)(version == 1 ? 6 : 8) + (size_t)entries);
                    check("needs and entries", cells, 2, enough ? 0 : 65, route);
                }
}

/* The LABs with several needs of one net, as lists; a third register with the signals of the first has no needs more. */
static void one_net(void)
{
    uint8_t settings[6 + NURIMKKOT_MOST_ENTRIES] = {'L', 'X', 'T', 1, 0};
    struct nurimkkot_cell cells[3];
    size_t i;
    int k;
    for (i = 0; i < SHARED_COUNT; i++) {
        const uint16_t *code = SHARED[i].signals.code;
        settings[5] = (uint8_t)SHARED[i].entries;
        memcpy(settings + 6, SHARED[i].flags, SHARED[i].entries);
        check_by(settings, 6 + SHARED[i].entries);
        for (k = 0; k < 2; k++)
            cells[k] = reg(code[k] ? code[k] : 1, code[2 + k], code[4 + k], (uint16_t)(100 + 2 * k));
        cells[0] = with(with(with(cells[0], SCLR, code[6]), SLOAD, code[7]), SDATA, 2);
        cells[2] = with(cells[0], REGOUT, 104);
        check(SHARED[i].what, cells, 2, SHARED[i].number, SHARED[i].route);
        check(SHARED[i].what, cells, 3, SHARED[i].number, SHARED[i].route);
    }
}

/* Eight needs of different nets on eight entries that each serve one role, in other orders; then with one entry that serves nothing. */
static void eight_needs(void)
{
    static const uint8_t role[8] = {NURIMKKOT_CLK, NURIMKKOT_CLK, NURIMKKOT_ENA, NURIMKKOT_ENA, NURIMKKOT_ACLR, NURIMKKOT_ACLR,
                                    NURIMKKOT_SCLR, NURIMKKOT_SLOAD};
    uint8_t settings[14] = {'L', 'X', 'T', 1, 0, 8}, route[8];
    struct nurimkkot_cell cells[2];
    int first, i;
    with_needs(cells, 8, 0);
    check_by(settings, sizeof settings);
    for (first = 0; first < 8; first++) {
        /* Entry (first + i) mod 8 has the role of need i; of two with the same role the lower entry goes to the first need. */
        for (i = 0; i < 8; i++) {
            settings[6 + (first + i) % 8] = role[i];
            route[i] = (uint8_t)((first + i) % 8);
        }
        for (i = 0; i < 6; i += 2)
            if (route[i] > route[i + 1]) {
                uint8_t higher = route[i];
                route[i] = route[i + 1];
                route[i + 1] = higher;
            }
        check("eight needs on eight entries", cells, 2, 0, route);
        settings[6 + first] = 0;
        check("eight needs on seven entries and one that serves nothing", cells, 2, 65, NO_ROUTE);
    }
}

/* What the second board makes of lists that document 01's board routes otherwise or refuses, and the other way round. */
static void second_board(void)
{
    static const uint8_t p9[8] = {0, 255, 2, 255, 3, 255, 255, 255}, p11[8] = {0, 1, 2, 3, 5, 6, 255, 255};
    static const uint8_t synchronous[8] = {2, 255, 255, 255, 255, 255, 0, 1}, seven[8] = {1, 2, 3, 4, 5, 6, 0, 255};
    uint8_t another[sizeof SECOND];
    struct nurimkkot_cell cells[3];
    int number;
    for (number = 0; number < 3; number++) {
        memcpy(another, SECOND, sizeof SECOND);
        another[6] = (uint8_t)(2 + 99 * number);
        another[7] = (uint8_t)(127 * number);
        check_by(another, sizeof another);
        cells[0] = reg(4, 6, 8, 20);
        check("P9 on the second board", cells, 1, 0, p9);
        cells[0] = reg(4, 8, 12, 20);
        cells[1] = reg(6, 10, 14, 22);
        check("P11 on the second board", cells, 2, 0, p11);
        cells[0] = with(cells[0], SCLR, 16);
        check("P11 and sclr on the second board", cells, 2, 0, seven);
        cells[0] = with(with(with(reg(4, 0, 8, 20), SCLR, 12), SLOAD, 14), SDATA, 2);
        cells[1] = reg(6, 0, 10, 22);
        check("P12 on the second board", cells, 2, 65, NO_ROUTE);
        cells[0] = with(with(with(reg(4, 0, 0, 20), SCLR, 12), SLOAD, 14), SDATA, 2);
        check("clk, sclr and sload on the second board", cells, 1, 0, synchronous);
        cells[0] = reg(4, 0, 0, 20);
        cells[1] = reg(5, 0, 0, 22);
        cells[2] = reg(0, 0, 0, 24);
        check("three clocks on the second board", cells, 3, 60, NO_ROUTE);
    }
}

static void boards(void)
{
    uint8_t damaged[sizeof HOUSE];
    size_t i;
    for (i = 0; i < BOARD_COUNT; i++) {
        check_by(BOARDS[i].bytes, BOARDS[i].length);
        if (BOARDS[i].number != 0)
            no_board(BOARDS[i].what, BOARDS[i].number);
        else
            check_once(BOARDS[i].what, NULL, 0, 0, NO_ROUTE);
    }
    for (i = 0; i < 8 * sizeof HOUSE; i++) {
        memcpy(damaged, HOUSE, sizeof HOUSE);
        damaged[i / 8] ^= (uint8_t)(1u << (i % 8));
        check_by(damaged, sizeof damaged);
        check_once("one bit of the settings changed", NULL, 0, settings_number(damaged, sizeof damaged), NO_ROUTE);
    }
    needs_and_entries();
    one_net();
    eight_needs();
    second_board();
    check_by(HOUSE, sizeof HOUSE);
}

int main(void)
{
    readers();
    lists();
    boards();
    printf(failures ? "%d failures\n" : "C: readers and lists as expected\n", failures);
    return failures != 0;
}
