/* What forms.c, limits.c and again.c share: nurimkkot_next_record beside nurimkkot_next_cell. */
#ifndef NURIMKKOT_TESTS_RECORDS_H
#define NURIMKKOT_TESTS_RECORDS_H

#include "sheets.h"

/* A struct with the record that these fields are. */
static struct nurimkkot_cell cell_from(const uint16_t *fields)
{
    struct nurimkkot_cell cell;
    int j;
    cell.kind = (uint8_t)fields[0];
    cell.flag = (uint8_t)fields[1];
    for (j = 0; j < 11; j++)
        cell.signals[j] = fields[2 + j];
    return cell;
}

/* Record `at` as a struct, between guards and then in a block of its own, is what nurimkkot_next_cell gives, and so are what is said and the
 * next number. Where no record is given, all 24 bytes are 0. Gives what was said, and the record. */
static uint8_t record_as_cell(const uint8_t *sheet, size_t length, uint16_t at, struct nurimkkot_cell *record)
{
    static const uint8_t zeros[sizeof(struct nurimkkot_cell)];
    struct { uint8_t before[16]; struct nurimkkot_cell cell; uint8_t behind[16]; } guarded;
    struct nurimkkot_cell *own = malloc(sizeof *own), wanted;
    uint16_t fields[NURIMKKOT_CELL_FIELDS], number[3] = {0x5a5a, at, 0x5a5a}, next = at, own_next = at;
    uint8_t *copy = copy_of(sheet, length), said;
    size_t i;
    if (own == NULL)
        exit(2);
    memset(&guarded, 0xa5, sizeof guarded);
    memset(own, 0x5a, sizeof *own);
    said = nurimkkot_next_cell(copy, length, &next, fields);
    wanted = cell_from(fields);
    expect(nurimkkot_next_record(copy, length, number + 1, &guarded.cell) == said, "what is said of a record", at);
    expect(nurimkkot_next_record(copy, length, &own_next, own) == said, "what is said of a record in its own block", at);
    expect(number[1] == next && own_next == next, "the number after a record", at);
    expect(number[0] == 0x5a5a && number[2] == 0x5a5a, "guards around the number of a record", at);
    expect(memcmp(&guarded.cell, &wanted, sizeof wanted) == 0 && memcmp(own, &wanted, sizeof wanted) == 0, "the bytes of a record", at);
    expect(said == NURIMKKOT_GIVEN || memcmp(own, zeros, sizeof zeros) == 0, "the zeros of no record", at);
    for (i = 0; i < sizeof guarded.before; i++)
        expect(guarded.before[i] == 0xa5 && guarded.behind[i] == 0xa5, "guards around a record", (long)i);
    *record = *own;
    free(own);
    give_back(copy, sheet, length);
    return said;
}

#endif
