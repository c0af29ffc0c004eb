/* Calls the writers of exercise and answer as a tablet or an author's program would: every refusal at both sides of its limit, the refusals
 * in their order, and every byte of what is written. The sheet stands between guards and then in a block of its own, the records always in
 * one, and what was written is read back (writers.h). */
#include "writers.h"
#include "chance.h"

/* As many records as any case here has. */
#define MOST 100000

static struct nurimkkot_cell cells[MOST];
static uint16_t places[3 * MOST];

/* A cell of a kind with nothing connected. */
static struct nurimkkot_cell open_cell(uint8_t kind)
{
    struct nurimkkot_cell cell = {0, 0, {0}};
    cell.kind = kind;
    return cell;
}

/* Cell i of a good exercise of 1,024 nets: no two are the same, and up to 512 of them drive each net once at most. */
static struct nurimkkot_cell good_cell(size_t i)
{
    struct nurimkkot_cell cell = open_cell(i % 3 == 1 ? 2 : 1);
    const char *ports = ports_of(cell.kind);
    int j;
    cell.flag = i % 6 == 3;
    for (j = 0; j < 11; j++) {
        unsigned code = (unsigned)((37 * i + 211 * (unsigned)j + i / 56) % 2052);
        if (ports[j] == 'i')
            cell.signals[j] = (uint16_t)(code == 3 ? 2 : code);
        else if (ports[j] == 'o' && i < CELLS)
            cell.signals[j] = (uint16_t)(4 + 4 * (511 - i) + (j == 6 ? 2 : 0));
    }
    return cell;
}

static void fill(size_t count)
{
    size_t i;
    for (i = 0; i < count; i++) {
        cells[i] = good_cell(i);
        places[3 * i] = (uint16_t)((5 * i + i / 32) % 32);
        places[3 * i + 1] = (uint16_t)((i / 32 + 3) % 32);
        places[3 * i + 2] = (uint16_t)((3 * i + i / 32) % 16);
    }
}

static struct input input_of(int of_answer, size_t count)
{
    return of_answer ? answer_of(0x04030201, places, count) : exercise_of(NETS, cells, count);
}

/* 2 and 13: both sides of the room that is needed and of 512 records. Counts of which the low 16 bits alone would be a small count too. */
static void rooms(void)
{
    static const size_t counts[] = {0, 1, 2, 255, 256, 258, 511, 512, 513, 600, 1024, 65535, 65536, 65537, 66048, MOST};
    size_t i, k;
    int of_answer;
    fill(MOST);
    for (of_answer = 0; of_answer < 2; of_answer++)
        for (i = 0; i < sizeof counts / sizeof counts[0]; i++) {
            struct input in = input_of(of_answer, counts[i]);
            size_t enough = needed(&in), low = (of_answer ? 11 : 9) + (counts[i] % 65536) * (of_answer ? 4 : 24);
            const size_t rooms[] = {0, 1, of_answer ? 10 : 8, of_answer ? 11 : 9, low, enough - 1, enough, enough + 1, enough + 1000};
            expect(enough == (of_answer ? NURIMKKOT_ANSWER_LENGTH(counts[i]) : NURIMKKOT_EXERCISE_LENGTH(counts[i])), "a length", (long)enough);
            for (k = 0; k < sizeof rooms / sizeof rooms[0]; k++)
                writes("by room and count", &in, rooms[k], rooms[k] < enough ? 2 : counts[i] > CELLS ? 13 : 0);
        }
}

/* 13: both sides of 1,024 nets, without cells and with one that reads net 0. */
static void nets(void)
{
    static const struct { uint32_t nets; uint8_t without, with_one; } cases[] = {
        {0, 0, 15}, {1, 0, 0}, {255, 0, 0}, {256, 0, 0}, {772, 0, 0}, {1023, 0, 0}, {1024, 0, 0},
        {1025, 13, 13}, {1280, 13, 13}, {2048, 13, 13}, {32768, 13, 13}, {65535, 13, 13},
    };
    struct nurimkkot_cell cell = open_cell(1);
    size_t i;
    cell.signals[0] = 4;
    for (i = 0; i < sizeof cases / sizeof cases[0]; i++) {
        struct input none = exercise_of(cases[i].nets, &cell, 0), one = exercise_of(cases[i].nets, &cell, 1);
        writes("nets, no cells", &none, 9, cases[i].without);
        writes("nets, one cell", &one, 33, cases[i].with_one);
    }
}

/* 15: every port of both kinds with each code that could be taken for another, at several net counts. */
static void signals(void)
{
    static const unsigned counts[] = {0, 1, 4, 300, 1024};
    unsigned code[] = {0, 1, 2, 3, 4, 5, 0, 0, 0, 0, 255, 256, 259, 768, 2050, 2051, 2052, 2053, 32767, 32768, 65532, 65534, 65535};
    size_t n, k;
    uint8_t kind;
    int j;
    for (n = 0; n < sizeof counts / sizeof counts[0]; n++) {
        code[6] = 2 + 2 * counts[n];
        code[7] = 3 + 2 * counts[n];
        code[8] = 4 + 2 * counts[n];
        code[9] = 5 + 2 * counts[n];
        for (kind = 1; kind <= 2; kind++)
            for (j = 0; j < 11; j++)
                for (k = 0; k < sizeof code / sizeof code[0]; k++) {
                    struct nurimkkot_cell cell = open_cell(kind);
                    struct input in = exercise_of(counts[n], &cell, 1);
                    cell.signals[j] = (uint16_t)code[k];
                    writes("a code at a port", &in, 33, bad_signal(ports_of(kind)[j], code[k], counts[n]) ? 15 : 0);
                }
    }
}

/* 15: all kinds, with the flags at both sides of each limit. */
static void kinds(void)
{
    static const uint8_t flags[] = {0, 1, 2, 255};
    unsigned kind, k;
    for (kind = 0; kind < 256; kind++)
        for (k = 0; k < sizeof flags; k++) {
            struct nurimkkot_cell cell = open_cell((uint8_t)kind);
            struct input in = exercise_of(0, &cell, 1);
            cell.flag = flags[k];
            writes("kind and flag", &in, 33, (kind == 1 && flags[k] < 2) || (kind == 2 && flags[k] == 0) ? 0 : 15);
        }
}

/* The outputs that there are. */
static const struct { uint8_t kind; int port; } OUTPUT[3] = {{1, 5}, {1, 6}, {2, 7}};

/* 16: one net at every two outputs of two cells, next to each other and with others between; the next net is another. */
static void drivers(void)
{
    static const uint16_t net[] = {0, 5, 1023};
    static const size_t other[] = {1, 5};
    size_t a, b, k, n, i;
    for (a = 0; a < 3; a++)
        for (b = 0; b < 3; b++)
            for (k = 0; k < 2; k++)
                for (n = 0; n < 3; n++) {
                    static struct nurimkkot_cell list[6];
                    struct input in = exercise_of(NETS, list, 6);
                    for (i = 0; i < 6; i++)
                        list[i] = open_cell(1);
                    list[0].kind = OUTPUT[a].kind;
                    list[0].signals[OUTPUT[a].port] = (uint16_t)(4 + 2 * net[n]);
                    list[other[k]].kind = OUTPUT[b].kind;
                    list[other[k]].signals[OUTPUT[b].port] = (uint16_t)(4 + 2 * net[n]);
                    writes("a net driven by two cells", &in, needed(&in), 16);
                    list[other[k]].signals[OUTPUT[b].port] = (uint16_t)(4 + 2 * (net[n] ^ 1));
                    writes("two nets driven by two cells", &in, needed(&in), 0);
                }
}

/* 16: in one cell; every net driven; and a read is no driver, at every input port of both kinds. */
static void driven_and_read(void)
{
    struct nurimkkot_cell two[2] = {open_cell(1), open_cell(1)};
    struct input in = exercise_of(NETS, two, 1);
    size_t i;
    int j;
    two[0].signals[5] = two[0].signals[6] = 2050;
    writes("combout and cout on one net", &in, 33, 16);
    two[0].signals[6] = 2048;
    writes("combout and cout on two nets", &in, 33, 0);
    in.count = 2;
    for (i = 0; i < 2; i++)
        for (j = 0; j < 7; j++) {
            two[1] = open_cell((uint8_t)(1 + i));
            two[1].signals[j] = 2050;
            writes("a net that is read too", &in, 57, ports_of(two[1].kind)[j] == 'i' ? 0 : 16);
            two[1].signals[j] = 2051;
            writes("a net that is read too, inverted", &in, 57, ports_of(two[1].kind)[j] == 'i' ? 0 : 15);
        }
    for (i = 0; i < CELLS; i++) {
        cells[i] = open_cell(1);
        cells[i].signals[5] = (uint16_t)(4 + 4 * i);
        cells[i].signals[6] = (uint16_t)(6 + 4 * i);
    }
    in = exercise_of(NETS, cells, CELLS);
    writes("every net driven once", &in, needed(&in), 0);
    cells[CELLS - 1].signals[6] = 4;
    writes("the first net driven again by the last cell", &in, needed(&in), 16);
    cells[CELLS - 1].signals[6] = cells[CELLS - 1].signals[5];
    writes("a net driven twice by the last cell", &in, needed(&in), 16);
}

/* Faults at the first, a middle and the last record of as many as there may be. */
static void positions(void)
{
    static const size_t at[] = {0, 1, 255, 256, CELLS - 1};
    struct input exercise = exercise_of(NETS, cells, CELLS), answer = answer_of(1, places, CELLS);
    size_t k;
    int j;
    fill(CELLS);
    for (k = 0; k < sizeof at / sizeof at[0]; k++) {
        struct nurimkkot_cell kept = cells[at[k]];
        cells[at[k]].kind = 0;
        writes("a broken record", &exercise, needed(&exercise), 15);
        cells[at[k]] = cells[(at[k] + 1) % CELLS];
        writes("a record again", &exercise, needed(&exercise), 16);
        cells[at[k]] = kept;
        writes("no fault", &exercise, needed(&exercise), 0);
        for (j = 0; j < 3; j++) {
            uint16_t stood = places[3 * at[k] + j];
            places[3 * at[k] + j] = 32;
            writes("a bad place", &answer, needed(&answer), 26);
            places[3 * at[k] + j] = stood;
        }
    }
    writes("no bad place", &answer, needed(&answer), 0);
}

/* The refusals of an exercise in their order: every set of faults, the broken record before, between and behind those that clash. */
static void order_in_exercise(void)
{
    static const uint8_t numbers[] = {2, 13, 13, 15, 16, 0};
    int faults, broken, first;
    for (faults = 0; faults < 32; faults++)
        for (broken = 0; broken < 3; broken++) {
            size_t count = faults & 2 ? CELLS + 1 : 9, at = broken == 0 ? 0 : broken == 1 ? 3 : count - 1;
            struct input in = exercise_of(faults & 4 ? NETS + 1 : NETS, cells, count);
            fill(count);
            if (faults & 16)
                cells[4] = cells[1];
            if (faults & 8)
                cells[at].signals[0] = 3;
            for (first = 0; first < 5 && !(faults & 1 << first); first++)
                continue;
            writes("the order of refusals of an exercise", &in, needed(&in) - (faults & 1), numbers[first]);
        }
}

/* The refusals of an answer in their order: every set of faults. */
static void order_in_answer(void)
{
    static const uint8_t numbers[] = {2, 13, 23, 26, 0};
    int faults, first;
    for (faults = 0; faults < 16; faults++) {
        size_t count = faults & 2 ? CELLS + 1 : 9;
        struct input in = answer_of(faults & 4 ? 0 : 7, places, count);
        fill(count);
        if (faults & 8)
            places[3 * 4 + 2] = 16;
        for (first = 0; first < 4 && !(faults & 1 << first); first++)
            continue;
        writes("the order of refusals of an answer", &in, needed(&in) - (faults & 1), numbers[first]);
    }
}

/* 23: the apprentice, with no places and with three. */
static void apprentices(void)
{
    static const uint32_t numbers[] = {0, 1, 7, 255, 256, 65535, 65536, 16777216, 0x01020304, 0x80000000, 0xffffff00, 0xffffffff};
    size_t i;
    fill(3);
    for (i = 0; i < sizeof numbers / sizeof numbers[0]; i++) {
        struct input none = answer_of(numbers[i], places, 0), three = answer_of(numbers[i], places, 3);
        writes("an apprentice without places", &none, 11, i == 0 ? 23 : 0);
        writes("an apprentice with places", &three, 23, i == 0 ? 23 : 0);
    }
}

/* 26: x, y and LE at both sides of their limits, and numbers of which the low byte alone would be good, in the first, second and last place. */
static void limits_of_places(void)
{
    static const uint16_t value[] = {0, 1, 14, 15, 16, 17, 30, 31, 32, 33, 63, 64, 127, 128, 255, 256, 257, 271, 287, 512, 32768, 65535};
    size_t k;
    int j, at;
    for (at = 0; at < 3; at++)
        for (j = 0; j < 3; j++)
            for (k = 0; k < sizeof value / sizeof value[0]; k++) {
                struct input in = answer_of(7, places, 3);
                fill(3);
                places[3 * at + j] = value[k];
                writes("x, y or LE", &in, 23, value[k] > (j < 2 ? 31 : 15) ? 26 : 0);
            }
    places[0] = places[1] = 31;
    places[2] = 15;
    for (k = 0; k < 2; k++) {
        struct input in = answer_of(7, places, 1);
        places[2] = (uint16_t)(15 + k);
        writes("the highest place", &in, 15, k ? 26 : 0);
    }
}

/* Sheets that look random, some of them with a fault or a room that is a little too small or larger than the sheet. */
static void random_sheets(void)
{
    int round, j;
    for (round = 0; round < 600; round++) {
        size_t count = chance(24), i;
        struct input in = round % 2 ? answer_of(chance(8) ? chance(1u << 30) << chance(3) : 0, places, count)
                                    : exercise_of(chance(3) ? NETS : chance(NETS + 2), cells, count);
        for (i = 0; i < count; i++) {
            cells[i] = good_cell((size_t)round + i < CELLS ? (size_t)round + i : i);
            for (j = 0; j < 3; j++)
                places[3 * i + j] = (uint16_t)chance(j < 2 ? 32 : 16);
        }
        if (count > 0 && chance(3) == 0)
            cells[chance((uint32_t)count)].signals[chance(11)] = (uint16_t)chance(chance(2) ? 8 : 65536);
        if (count > 0 && chance(3) == 0)
            cells[chance((uint32_t)count)] = cells[0];
        if (count > 0 && chance(3) == 0)
            places[chance(3 * (uint32_t)count)] = (uint16_t)chance(chance(2) ? 40 : 65536);
        i = needed(&in) + chance(4) - (chance(6) ? 0 : 3);
        writes("a random sheet", &in, i, number_of(&in, i));
    }
}

/* The worked listing of document 01, to the bytes that document gives. */
static void listing(void)
{
    static const uint16_t listed[6] = {2, 1, 0, 2, 1, 0};
    struct nurimkkot_cell two[2] = {{2, 0, {4, 6, 0, 8, 0, 0, 0, 10}}, {1, 0, {10, 0, 0, 0, 0, 4}}};
    struct input exercise = exercise_of(4, two, 2), answer = answer_of(7, listed, 2);
    uint8_t sheet[sizeof EXERCISE];
    size_t length;
    writes("the exercise of the listing", &exercise, sizeof EXERCISE, 0);
    writes("the answer of the listing", &answer, sizeof ANSWER, 0);
    expect(nurimkkot_write_exercise(4, two, 2, sheet, sizeof sheet, &length) == 0 && length == sizeof EXERCISE
           && memcmp(sheet, EXERCISE, sizeof EXERCISE) == 0, "the exercise of document 01", (long)length);
    expect(nurimkkot_write_answer(7, listed, 2, sheet, sizeof sheet, &length) == 0 && length == sizeof ANSWER
           && memcmp(sheet, ANSWER, sizeof ANSWER) == 0, "the answer of document 01", (long)length);
}

int main(void)
{
    static const uint8_t numbers[] = {0, 2, 13, 15, 16, 23, 26};
    size_t i;
    listing();
    rooms();
    nets();
    signals();
    kinds();
    drivers();
    driven_and_read();
    positions();
    order_in_exercise();
    order_in_answer();
    apprentices();
    limits_of_places();
    random_sheets();
    for (i = 0; i < sizeof numbers; i++)
        expect(returned[numbers[i]] > 0, "every number was returned", numbers[i]);
    if (failures == 0)
        printf("C: the writers of exercise and answer as expected in %ld calls, %ld of them refused\n", calls, calls - returned[0]);
    return failures != 0;
}
