/* Opens sheets, and reads and writes records and places, at both sides of every limit of document 01. */
#include "records.h"

static void put_word(uint8_t *at, unsigned n)
{
    at[0] = (uint8_t)(n % 256);
    at[1] = (uint8_t)(n / 256);
}

/* The heads of the two sheets, with zeros after them. */
static uint8_t exercise[12400];
static uint8_t answer[2100];

static void begin_exercise(unsigned version, unsigned nets, unsigned cells)
{
    memset(exercise, 0, sizeof exercise);
    memcpy(exercise, "LXE", 3);
    put_word(exercise + 3, version);
    put_word(exercise + 5, nets);
    put_word(exercise + 7, cells);
}

static void begin_answer(unsigned version, unsigned low, unsigned high, unsigned cells)
{
    memset(answer, 0, sizeof answer);
    memcpy(answer, "LXA", 3);
    put_word(answer + 3, version);
    put_word(answer + 5, low);
    put_word(answer + 7, high);
    put_word(answer + 9, cells);
}

static void opens_exercise(const char *what, size_t size, unsigned number)
{
    uint8_t *copy = copy_of(exercise, size);
    expect(nurimkkot_open_exercise(copy, size) == number, what, (long)size);
    give_back(copy, exercise, size);
}

static void opens_answer(const char *what, size_t size, unsigned number)
{
    uint8_t *copy = copy_of(answer, size);
    expect(nurimkkot_open_answer(copy, size) == number, what, (long)size);
    give_back(copy, answer, size);
}

/* 10 to 14 */
static void exercise_heads(void)
{
    static const struct { const char *what; unsigned version, nets, cells; size_t size; unsigned number; } cases[] = {
        { "exercise of 0 bytes", 1, 4, 0, 0, 10 },
        { "exercise of 8 bytes", 1, 4, 0, 8, 10 },
        { "exercise of 9 bytes", 1, 4, 0, 9, 0 },
        { "exercise version 0", 0, 4, 0, 9, 12 },
        { "exercise version 2", 2, 4, 0, 9, 12 },
        { "exercise version 256", 256, 4, 0, 9, 12 },
        { "exercise 0 nets 0 cells", 1, 0, 0, 9, 0 },
        { "exercise 1024 nets", 1, 1024, 0, 9, 0 },
        { "exercise 1025 nets", 1, 1025, 0, 9, 13 },
        { "exercise 512 cells", 1, 4, 512, 12297, 0 },
        { "exercise 513 cells", 1, 4, 513, 12321, 13 },
        { "exercise 65535 cells", 1, 4, 65535, 9, 13 },
        { "exercise 1 cell, a byte short", 1, 4, 1, 32, 14 },
        { "exercise 1 cell", 1, 4, 1, 33, 0 },
        { "exercise 1 cell, a byte over", 1, 4, 1, 34, 14 },
        { "exercise 512 cells, a byte short", 1, 4, 512, 12296, 14 },
        { "exercise 512 cells, a byte over", 1, 4, 512, 12298, 14 },
    };
    for (size_t i = 0; i < sizeof cases / sizeof cases[0]; i++) {
        begin_exercise(cases[i].version, cases[i].nets, cases[i].cells);
        opens_exercise(cases[i].what, cases[i].size, cases[i].number);
    }
    for (size_t i = 0; i < 3; i++) {
        begin_exercise(1, 4, 0);
        exercise[i] = (uint8_t)"KYA"[i];
        opens_exercise("exercise mark", 9, 11);
    }
}

/* 20 to 25 without 24 */
static void answer_heads(void)
{
    static const struct { const char *what; unsigned version, low, high, cells; size_t size; unsigned number; } cases[] = {
        { "answer of 0 bytes", 1, 7, 0, 0, 0, 20 },
        { "answer of 10 bytes", 1, 7, 0, 0, 10, 20 },
        { "answer of 11 bytes", 1, 7, 0, 0, 11, 0 },
        { "answer version 0", 0, 7, 0, 0, 11, 22 },
        { "answer version 2", 2, 7, 0, 0, 11, 22 },
        { "answer version 256", 256, 7, 0, 0, 11, 22 },
        { "answer apprentice 0", 1, 0, 0, 0, 11, 23 },
        { "answer apprentice 1", 1, 1, 0, 0, 11, 0 },
        { "answer apprentice 65536", 1, 0, 1, 0, 11, 0 },
        { "answer apprentice 4294967295", 1, 65535, 65535, 0, 11, 0 },
        { "answer 1 cell, a byte short", 1, 7, 0, 1, 14, 25 },
        { "answer 1 cell", 1, 7, 0, 1, 15, 0 },
        { "answer 1 cell, a byte over", 1, 7, 0, 1, 16, 25 },
        { "answer 512 cells", 1, 7, 0, 512, 2059, 0 },
        { "answer 513 cells", 1, 7, 0, 513, 2063, 0 },
    };
    for (size_t i = 0; i < sizeof cases / sizeof cases[0]; i++) {
        begin_answer(cases[i].version, cases[i].low, cases[i].high, cases[i].cells);
        opens_answer(cases[i].what, cases[i].size, cases[i].number);
    }
    for (size_t i = 0; i < 3; i++) {
        begin_answer(1, 7, 0, 0);
        answer[i] = (uint8_t)"KYE"[i];
        opens_answer("answer mark", 11, 21);
    }
}

/* One record in an exercise with these nets: signal j has a code, and all others are 0. A record that is given comes back as it is, and is
 * written again; one that is not is refused with 15. */
static void reads_record(const char *what, unsigned nets, unsigned kind, unsigned flag, unsigned j, unsigned code, int given)
{
    uint16_t at = 0;
    uint16_t cell[NURIMKKOT_CELL_FIELDS];
    struct nurimkkot_cell record = { (uint8_t)kind, (uint8_t)flag, { 0 } };
    uint8_t again[33];
    size_t length;
    begin_exercise(1, nets, 1);
    exercise[9] = (uint8_t)kind;
    exercise[10] = (uint8_t)flag;
    put_word(exercise + 11 + 2 * j, code);
    memset(cell, 0xAA, sizeof cell);
    expect(nurimkkot_next_cell(exercise, 33, &at, cell) == (given ? NURIMKKOT_GIVEN : NURIMKKOT_BROKEN), what, code);
    expect(at == (given ? 1 : 0), what, at);
    for (unsigned field = 0; field < NURIMKKOT_CELL_FIELDS; field++) {
        unsigned value = field == 0 ? kind : field == 1 ? flag : field == j + 2 ? code : 0;
        expect(cell[field] == (given ? value : 0), what, field);
    }
    record.signals[j] = (uint16_t)code;
    expect(nurimkkot_write_exercise((uint16_t)nets, &record, 1, again, sizeof again, &length) == (given ? 0 : 15), what, code);
    expect(length == (given ? sizeof again : 0) && (!given || memcmp(again, exercise, sizeof again) == 0), what, code);
    expect(record_as_cell(exercise, 33, 0, &record) == (given ? NURIMKKOT_GIVEN : NURIMKKOT_BROKEN), what, code);
}

/* 15 */
static void records(void)
{
    static const struct { const char *what; unsigned kind, flag, j, code; int given; } cases[] = {
        { "kind 0", 0, 0, 0, 4, 0 },
        { "kind 1", 1, 0, 0, 4, 1 },
        { "kind 2", 2, 0, 0, 4, 1 },
        { "kind 3", 3, 0, 0, 4, 0 },
        { "kind 1 flag 1", 1, 1, 0, 4, 1 },
        { "kind 1 flag 2", 1, 2, 0, 4, 0 },
        { "kind 2 flag 1", 2, 1, 0, 4, 0 },
        { "dataa GND", 1, 0, 0, 1, 1 },
        { "dataa VCC", 1, 0, 0, 2, 1 },
        { "dataa 3", 1, 0, 0, 3, 0 },
        { "cin 3", 1, 0, 4, 3, 0 },
        { "sdata 3", 2, 0, 6, 3, 0 },
        { "clk net 299", 2, 0, 1, 602, 1 },
        { "clk net 299 inverted", 2, 0, 1, 603, 1 },
        { "clk net 300", 2, 0, 1, 604, 0 },
        { "clk net 300 inverted", 2, 0, 1, 605, 0 },
        { "clk code 65535", 2, 0, 1, 65535, 0 },
        { "combout GND", 1, 0, 5, 1, 0 },
        { "combout net 299", 1, 0, 5, 602, 1 },
        { "combout net 299 inverted", 1, 0, 5, 603, 0 },
        { "combout net 300", 1, 0, 5, 604, 0 },
        { "cout VCC", 1, 0, 6, 2, 0 },
        { "cout 3", 1, 0, 6, 3, 0 },
        { "cout net 0", 1, 0, 6, 4, 1 },
        { "cout net 0 inverted", 1, 0, 6, 5, 0 },
        { "regout net 0", 2, 0, 7, 4, 1 },
        { "regout net 0 inverted", 2, 0, 7, 5, 0 },
        { "regout GND", 2, 0, 7, 1, 0 },
        { "combinational with an eighth signal", 1, 0, 7, 4, 0 },
        { "combinational with an eleventh signal", 1, 0, 10, 256, 0 },
        { "register with a ninth signal", 2, 0, 8, 4, 0 },
        { "register with a tenth signal", 2, 0, 9, 1, 0 },
        { "register with an eleventh signal", 2, 0, 10, 256, 0 },
    };
    for (size_t i = 0; i < sizeof cases / sizeof cases[0]; i++)
        reads_record(cases[i].what, 300, cases[i].kind, cases[i].flag, cases[i].j, cases[i].code, cases[i].given);
    reads_record("net 0 of 0 nets", 0, 1, 0, 0, 4, 0);
    reads_record("net 0 of 1 net", 1, 1, 0, 0, 4, 1);
}

/* 26 */
static void places(void)
{
    static const struct { const char *what; uint8_t place[4]; int given; } cases[] = {
        { "place 0 0 0", { 0, 0, 0, 0 }, 1 },
        { "place 2 1 0", { 2, 1, 0, 0 }, 1 },
        { "x 31", { 31, 0, 0, 0 }, 1 },
        { "x 32", { 32, 0, 0, 0 }, 0 },
        { "y 31", { 0, 31, 0, 0 }, 1 },
        { "y 32", { 0, 32, 0, 0 }, 0 },
        { "LE 15", { 0, 0, 15, 0 }, 1 },
        { "LE 16", { 0, 0, 16, 0 }, 0 },
        { "last byte 1", { 0, 0, 0, 1 }, 0 },
        { "the highest place", { 31, 31, 15, 0 }, 1 },
    };
    for (size_t i = 0; i < sizeof cases / sizeof cases[0]; i++) {
        uint16_t at = 0;
        uint16_t place[NURIMKKOT_PLACE_FIELDS] = { 7, 7, 7 };
        uint8_t again[15];
        size_t length;
        begin_answer(1, 7, 0, 1);
        memcpy(answer + 11, cases[i].place, 4);
        expect(nurimkkot_next_place(answer, 15, &at, place) == (cases[i].given ? NURIMKKOT_GIVEN : NURIMKKOT_BROKEN), cases[i].what, (long)i);
        expect(at == (cases[i].given ? 1 : 0), cases[i].what, at);
        for (unsigned field = 0; field < NURIMKKOT_PLACE_FIELDS; field++)
            expect(place[field] == (cases[i].given ? cases[i].place[field] : 0), cases[i].what, field);
        /* The last byte of a place is not among the three numbers that the writer is given. */
        if (cases[i].place[3] != 0)
            continue;
        for (unsigned field = 0; field < NURIMKKOT_PLACE_FIELDS; field++)
            place[field] = cases[i].place[field];
        expect(nurimkkot_write_answer(7, place, 1, again, sizeof again, &length) == (cases[i].given ? 0 : 26), cases[i].what, (long)i);
        expect(length == (cases[i].given ? sizeof again : 0), cases[i].what, (long)length);
        expect(!cases[i].given || memcmp(again, answer, sizeof again) == 0, cases[i].what, (long)i);
    }
}

/* The second record and the second place of two, a third that is not there, and the highest number there is. */
static void second_of_two(void)
{
    static const uint16_t numbers[] = { 1, 2, 65535 };
    begin_exercise(1, 300, 2);
    exercise[33] = 2;
    exercise[35] = 4;
    begin_answer(1, 7, 0, 2);
    memcpy(answer + 15, "\3\4\5", 3);
    for (size_t i = 0; i < 3; i++) {
        uint16_t at = numbers[i];
        uint16_t cell[NURIMKKOT_CELL_FIELDS];
        uint16_t place[NURIMKKOT_PLACE_FIELDS];
        expect(nurimkkot_next_cell(exercise, 57, &at, cell) == (i == 0 ? NURIMKKOT_GIVEN : NURIMKKOT_END), "which record", numbers[i]);
        expect(cell[0] == (i == 0 ? 2 : 0) && cell[2] == (i == 0 ? 4 : 0), "fields of the second record", numbers[i]);
        at = numbers[i];
        expect(nurimkkot_next_place(answer, 19, &at, place) == (i == 0 ? NURIMKKOT_GIVEN : NURIMKKOT_END), "which place", numbers[i]);
        expect(place[0] == (i == 0 ? 3 : 0) && place[1] == (i == 0 ? 4 : 0) && place[2] == (i == 0 ? 5 : 0), "the second place", numbers[i]);
    }
}

int main(void)
{
    exercise_heads();
    answer_heads();
    records();
    places();
    second_of_two();
    if (failures == 0)
        printf("C: both sides of every limit of a sheet\n");
    return failures != 0;
}
