/* Reads sheets and writes them again: again EXERCISE ANSWER .. An exercise that passes 10 to 16 and an answer whose places are all good come
 * out byte for byte; one that breaks another rule of a writer is refused with the judge's number. nurimkkot_next_record is compared with
 * nurimkkot_next_cell at every record, at both ends, and on sheets cut short or with one wrong bit. */
#include "records.h"
#include "writers.h"
#include "../../c/sheet_files.h"

/* Longer sheets than the largest legal ones are read whole too. */
#define ROOM 16384
#define MOST (ROOM / 4)

static uint8_t sheet[ROOM];
static struct nurimkkot_cell cells[MOST];
static uint16_t places[3 * MOST];

static unsigned word_at(const uint8_t *at)
{
    return at[0] + 256u * at[1];
}

/* How many sheets were written again, and how many were refused, and how many records were compared. */
static int exercises, answers, refused, records;

/* Writes a sheet again from its records, into a buffer of its length and into a longer one. */
static void again(const char *name, const struct input *in, size_t length)
{
    static uint8_t buffer[ROOM];
    size_t written;
    expect(call(in, in->records, buffer, length, &written) == 0 && written == length && memcmp(buffer, sheet, length) == 0, name, (long)length);
    writes(name, in, length, 0);
    writes(name, in, length + 100, 0);
    writes(name, in, length - 1, 2);
}

/* Every record of a sheet both ways, and two past its end; gives how many there are up to the first that is not given. Of a count that the
 * sheet has no room for, as many as there could be and two more. */
static size_t read_records(size_t length, unsigned count)
{
    struct nurimkkot_cell cell;
    size_t given = 0;
    unsigned at;
    int whole = 1;
    for (at = 0; at < count + 2 && at < ROOM / 24 + 2; at++) {
        uint8_t said = record_as_cell(sheet, length, (uint16_t)at, &cell);
        expect((said == NURIMKKOT_END) == (at >= count), "where the records end", (long)at);
        whole = whole && said == NURIMKKOT_GIVEN;
        if (whole)
            cells[given++] = cell;
        records++;
    }
    expect(record_as_cell(sheet, length, 65535, &cell) == NURIMKKOT_END, "far past the end", 65535);
    return given;
}

/* The records as they stand on the sheet, good or not. */
static void take_records(size_t from, size_t count)
{
    size_t i;
    int j;
    for (i = from; i < count; i++) {
        const uint8_t *at = sheet + 9 + 24 * i;
        cells[i].kind = at[0];
        cells[i].flag = at[1];
        for (j = 0; j < 11; j++)
            cells[i].signals[j] = (uint16_t)word_at(at + 2 + 2 * j);
    }
}

/* An exercise whose mark, version and length are right: written again, or refused as the judge refuses it. */
static void exercise_again(const char *name)
{
    size_t length = read_file(name, 1, memset(sheet, 0, sizeof sheet), sizeof sheet), given;
    unsigned count = word_at(sheet + 7), number = (unsigned)verdict(sheet, length, NULL, 0);
    struct input in;
    given = read_records(length, count);
    if (number < 13 || length != NURIMKKOT_EXERCISE_LENGTH(count))
        return;
    expect((given == count) == (number != 15), name, (long)given);
    take_records(given, count);
    in = exercise_of(word_at(sheet + 5), cells, count);
    if (number == 20) {
        expect(nurimkkot_open_exercise(sheet, length) == 0, name, number);
        again(name, &in, length);
        exercises++;
    } else {
        writes(name, &in, length, (uint8_t)number);
        writes(name, &in, length - 1, 2);
        refused++;
    }
}

/* The same for an answer, by opening it and reading its places: the zero byte of a place is not among what a writer is given. */
static void answer_again(const char *name)
{
    size_t length = read_file(name, 1, sheet, sizeof sheet), i;
    uint8_t number = nurimkkot_open_answer(sheet, length);
    uint16_t at = 0, place[NURIMKKOT_PLACE_FIELDS];
    struct input in;
    if ((number != 0 && number != 23) || length != NURIMKKOT_ANSWER_LENGTH(word_at(sheet + 9)))
        return;
    in = answer_of(word_at(sheet + 5) + 65536u * word_at(sheet + 7), places, word_at(sheet + 9));
    for (i = 0; i < in.count && nurimkkot_next_place(sheet, length, &at, place) == NURIMKKOT_GIVEN; i++)
        memcpy(places + 3 * i, place, sizeof place);
    if (i == in.count && number == 0 && in.count <= CELLS) {
        again(name, &in, length);
        answers++;
        return;
    }
    for (; i < in.count; i++)
        for (at = 0; at < 3; at++)
            places[3 * i + at] = sheet[11 + 4 * i + at];
    writes(name, &in, length, number_of(&in, length));
    refused++;
}

/* The worked listing, cut short at every length and with each of its bits the other way. */
static void damaged(void)
{
    struct nurimkkot_cell cell;
    size_t i;
    uint16_t at;
    for (i = 0; i < sizeof EXERCISE * 9; i++) {
        size_t length = i < sizeof EXERCISE ? i : sizeof EXERCISE, bit = i - sizeof EXERCISE;
        memcpy(sheet, EXERCISE, sizeof EXERCISE);
        if (i >= sizeof EXERCISE)
            sheet[bit / 8] ^= (uint8_t)(1u << (bit % 8));
        for (at = 0; at < 4; at++)
            record_as_cell(sheet, length, at, &cell);
        records += 4;
    }
}

int main(int argc, char **argv)
{
    static const uint8_t numbers[] = {13, 15, 16, 23, 26};
    int pair;
    size_t i;
    for (pair = 1; pair + 1 < argc; pair += 2) {
        if (pair == 1 || strcmp(argv[pair], argv[pair - 2]) != 0)
            exercise_again(argv[pair]);
        answer_again(argv[pair + 1]);
    }
    expect(exercises >= 60 && answers >= 80 && refused >= 10, "enough sheets of each sort", exercises);
    for (i = 0; i < sizeof numbers; i++)
        expect(returned[numbers[i]] > 0, "a sheet refused with each number", numbers[i]);
    damaged();
    if (failures == 0)
        printf("C: %d exercises and %d answers written again to the same bytes, %d refused; %d records read both ways\n", exercises, answers,
               refused, records);
    return failures != 0;
}
