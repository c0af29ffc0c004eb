/* What write.c and again.c share: calls of the two writers with guards around what they write, and what they have to answer and to write by
 * document 01, said plainly. */
#ifndef NURIMKKOT_TESTS_WRITERS_H
#define NURIMKKOT_TESTS_WRITERS_H

#include "sheets.h"

#define CELLS 512
#define NETS 1024

/* So many guard bytes stand on both sides of a sheet; the number is odd, so that the sheet is at an odd address. */
#define GUARD 61

/* What a writer is given: nets and cells, or an apprentice and places. */
struct input {
    int of_answer;
    uint32_t head;
    const void *records;
    size_t count;
};

static struct input exercise_of(uint32_t nets, const struct nurimkkot_cell *cells, size_t count)
{
    struct input in = {0, nets, NULL, 0};
    in.records = cells;
    in.count = count;
    return in;
}

static struct input answer_of(uint32_t apprentice, const uint16_t *places, size_t count)
{
    struct input in = {1, apprentice, NULL, 0};
    in.records = places;
    in.count = count;
    return in;
}

static const struct nurimkkot_cell *cell_of_input(const struct input *in, size_t i)
{
    return (const struct nurimkkot_cell *)in->records + i;
}

static const uint16_t *place_of_input(const struct input *in, size_t i)
{
    return (const uint16_t *)in->records + 3 * i;
}

/* How many bytes the records have in memory, and how many the sheet needs. */
static size_t input_size(const struct input *in)
{
    return in->count * (in->of_answer ? 6 : 24);
}

static size_t needed(const struct input *in)
{
    return in->of_answer ? 11 + 4 * in->count : 9 + 24 * in->count;
}

/* The bytes of the sheet, as docs/SHEETS.md lists them. */
static void encode(const struct input *in, uint8_t *at)
{
    size_t i;
    int j;
    memcpy(at, in->of_answer ? "LXA" : "LXE", 3);
    at = put(at + 3, 1, 2);
    at = put(at, in->head, in->of_answer ? 4 : 2);
    at = put(at, (uint32_t)in->count, 2);
    for (i = 0; i < in->count; i++) {
        if (in->of_answer) {
            for (j = 0; j < 3; j++)
                at = put(at, place_of_input(in, i)[j], 1);
            at = put(at, 0, 1);
        } else {
            at = put(at, cell_of_input(in, i)->kind, 1);
            at = put(at, cell_of_input(in, i)->flag, 1);
            for (j = 0; j < 11; j++)
                at = put(at, cell_of_input(in, i)->signals[j], 2);
        }
    }
}

/* 15: i is an input port, o an output port, 0 a zero. */
static const char *ports_of(uint8_t kind)
{
    return kind == 1 ? "iiiiioo0000" : kind == 2 ? "iiiiiiio000" : NULL;
}

static int bad_signal(char port, unsigned code, unsigned nets)
{
    int net = code >= 4 && (code - 4) / 2 < nets;
    switch (port) {
    case 'i':
        return !(code <= 2 || net);
    case 'o':
        return !(code == 0 || (net && code % 2 == 0));
    default:
        return code != 0;
    }
}

static int breaks_layout(const struct nurimkkot_cell *cell, unsigned nets)
{
    const char *ports = ports_of(cell->kind);
    int j, broken = ports == NULL || cell->flag > (cell->kind == 1 ? 1 : 0);
    for (j = 0; j < 11 && !broken; j++)
        broken = bad_signal(ports[j], cell->signals[j], nets);
    return broken;
}

/* 16, where no record breaks the layout. */
static int drives_twice(const struct input *in)
{
    uint8_t driven[NETS] = {0};
    size_t i;
    int j;
    for (i = 0; i < in->count; i++)
        for (j = 0; j < 11; j++) {
            uint16_t code = cell_of_input(in, i)->signals[j];
            if (ports_of(cell_of_input(in, i)->kind)[j] == 'o' && code != 0 && driven[(code - 4) / 2]++)
                return 1;
        }
    return 0;
}

/* The number that the writer has to return. */
static uint8_t number_of(const struct input *in, size_t room)
{
    size_t i;
    int j;
    if (room < needed(in))
        return 2;
    if (in->count > 512 || (!in->of_answer && in->head > 1024))
        return 13;
    if (in->of_answer && in->head == 0)
        return 23;
    for (i = 0; i < in->count; i++)
        if (in->of_answer) {
            for (j = 0; j < 3; j++)
                if (place_of_input(in, i)[j] > (j < 2 ? 31 : 15))
                    return 26;
        } else if (breaks_layout(cell_of_input(in, i), in->head)) {
            return 15;
        }
    return !in->of_answer && drives_twice(in) ? 16 : 0;
}

/* How often a writer was called, and how often it returned each number. */
static long calls, returned[256];

static uint8_t call(const struct input *in, const void *records, uint8_t *sheet, size_t room, size_t *length)
{
    uint8_t number = in->of_answer ? nurimkkot_write_answer(in->head, records, in->count, sheet, room, length)
                                   : nurimkkot_write_exercise((uint16_t)in->head, records, in->count, sheet, room, length);
    calls++;
    returned[number]++;
    return number;
}

/* A block of so many bytes, no two neighbours the same. */
static uint8_t *filled(size_t size, uint8_t fill)
{
    uint8_t *block = malloc(size);
    size_t i;
    if (block == NULL)
        exit(2);
    for (i = 0; i < size && i < 256; i++)
        block[i] = (uint8_t)(fill ^ (151 * i % 256));
    for (; i < size; i += 256)
        memcpy(block + i, block, size - i < 256 ? size - i : 256);
    return block;
}

/* Writes into a buffer between guards. The whole block is as before but for the sheet where the number is 0; so is what stands around the
 * length. Fills of which each byte is the other one's inverse let no byte that is written pass unseen. */
static void write_guarded(const char *what, const struct input *in, size_t room, uint8_t number, uint8_t fill)
{
    size_t size = room + 2 * GUARD, sheet = number == 0 ? needed(in) : 0, lengths[3], untouched, i;
    uint8_t *block = filled(size, fill), *wanted = filled(size, fill);
    void *records = copy_of(in->records, input_size(in));
    memset(&untouched, fill, sizeof untouched);
    memset(lengths, fill, sizeof lengths);
    if (number == 0)
        encode(in, wanted + GUARD);
    expect(call(in, records, block + GUARD, room, lengths + 1) == number, what, number);
    expect(lengths[1] == sheet, "the length", (long)lengths[1]);
    expect(lengths[0] == untouched && lengths[2] == untouched, "guards around the length", (long)room);
    for (i = memcmp(block, wanted, size) == 0 ? size : 0; i < size && block[i] == wanted[i]; i++)
        continue;
    expect(i >= GUARD, "guard in front of the buffer", (long)i - GUARD);
    expect(i < GUARD || i >= GUARD + sheet, "a byte of the sheet", (long)i - GUARD);
    expect(i < GUARD + sheet || i >= GUARD + room, "a byte of the buffer that is not the sheet's", (long)i - GUARD);
    expect(i < GUARD + room || i == size, "guard behind the buffer", (long)i - GUARD);
    give_back(records, in->records, input_size(in));
    free(wanted);
    free(block);
}

/* What the judge says of two sheets on document 01's board. */
static uint64_t verdict(const uint8_t *exercise, size_t exercise_length, const uint8_t *answer, size_t answer_length)
{
    static uint8_t route[NURIMKKOT_ROUTE_SIZE];
    static uint32_t tries[NURIMKKOT_TRIES];
    uint64_t numbers[NURIMKKOT_NUMBERS];
    nurimkkot_judge(HOUSE, sizeof HOUSE, exercise, exercise_length, answer, answer_length, route, sizeof route, tries, NURIMKKOT_TRIES,
                    numbers);
    return numbers[NURIMKKOT_NUMBER];
}

/* A written exercise passes 10 to 16, opens, and reads back as the same records. */
static void exercise_reads_back(const struct input *in, const uint8_t *sheet)
{
    struct nurimkkot_cell cell;
    uint16_t at = 0;
    size_t length = needed(in), i;
    expect(verdict(sheet, length, NULL, 0) == 20, "a written exercise passes 10 to 16", (long)length);
    expect(nurimkkot_open_exercise(sheet, length) == 0, "a written exercise opens", (long)length);
    expect(sheet[5] + 256u * sheet[6] == in->head, "nets read back", (long)in->head);
    for (i = 0; i < in->count; i++)
        expect(nurimkkot_next_record(sheet, length, &at, &cell) == NURIMKKOT_GIVEN && memcmp(&cell, cell_of_input(in, i), 24) == 0,
               "a record read back", (long)i);
    expect(nurimkkot_next_record(sheet, length, &at, &cell) == NURIMKKOT_END, "the end read back", at);
}

/* A written answer passes 20 to 26 beside as many cells without a connection, opens, and reads back as the same places. */
static void answer_reads_back(const struct input *in, const uint8_t *sheet)
{
    static const struct nurimkkot_cell open = {1, 0, {0}};
    static struct nurimkkot_cell cells[CELLS];
    static uint8_t exercise[NURIMKKOT_EXERCISE_LENGTH(CELLS)];
    struct input beside = exercise_of(0, cells, in->count);
    uint16_t at = 0, place[NURIMKKOT_PLACE_FIELDS];
    uint64_t number;
    size_t length = needed(in), i;
    for (i = 0; i < in->count; i++)
        cells[i] = open;
    encode(&beside, exercise);
    number = verdict(exercise, needed(&beside), sheet, length);
    expect(number == 0 || number == 50, "a written answer passes 20 to 26", (long)number);
    expect(nurimkkot_open_answer(sheet, length) == 0, "a written answer opens", (long)length);
    expect(sheet[5] + 256u * (sheet[6] + 256u * (sheet[7] + 256u * sheet[8])) == in->head, "apprentice read back", (long)in->head);
    for (i = 0; i < in->count; i++)
        expect(nurimkkot_next_place(sheet, length, &at, place) == NURIMKKOT_GIVEN && memcmp(place, place_of_input(in, i), 6) == 0,
               "a place read back", (long)i);
    expect(nurimkkot_next_place(sheet, length, &at, place) == NURIMKKOT_END, "the end read back", at);
}

/* Writes into a block of its own of exactly `room` bytes, the length in one too, so that valgrind sees a byte too far; reads it back. */
static void write_alone(const char *what, const struct input *in, size_t room, uint8_t number)
{
    size_t *length = malloc(sizeof *length);
    uint8_t *wanted = filled(room + 1, 0x3c), *sheet = copy_of(wanted, room);
    void *records = copy_of(in->records, input_size(in));
    if (length == NULL)
        exit(2);
    expect(call(in, records, sheet, room, length) == number, what, number);
    give_back(records, in->records, input_size(in));
    if (number == 0) {
        encode(in, wanted);
        if (in->of_answer)
            answer_reads_back(in, sheet);
        else
            exercise_reads_back(in, sheet);
    }
    expect(memcmp(sheet, wanted, room) == 0, what, (long)room);
    expect(*length == (number == 0 ? needed(in) : 0), what, (long)*length);
    free(room ? sheet : sheet - BEHIND);
    free(wanted);
    free(length);
}

/* The writer returns this number and writes what it has to. */
static void writes(const char *what, const struct input *in, size_t room, uint8_t number)
{
    if (number_of(in, room) != number) {
        expect(0, "the test itself expects another number", number);
        return;
    }
    write_guarded(what, in, room, number, 0xa5);
    write_guarded(what, in, room, number, 0x5a);
    write_alone(what, in, room, number);
}

#endif
