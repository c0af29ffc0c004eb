/* Calls the three functions of the settings sheet: settings HOUSE SETTINGS .. Document 01's board is that of the file HOUSE; the reader and
 * the writer are tried at both sides of every limit, with their refusals in order, and on all files. Guard bytes stand around what is
 * written, and sheets, entries and results are in blocks of their own too, so that valgrind sees a byte too far. */
#include "boards.h"
#include "../../c/sheet_files.h"

#define GUARD 61

/* As many entries as any case here has, and as many bytes as any file. */
#define MOST 100000
#define ROOM 4096

/* How often the reader and the writer had to return each number. */
static long read_as[256], written_as[256];

/* A block of so many bytes of one value. */
static void *filled(size_t size, uint8_t fill)
{
    void *block = malloc(size);
    if (block == NULL)
        exit(2);
    return memset(block, fill, size);
}

/* Document 01's board, between guards and in a block of its own; the file has the same bytes. */
static void house(const char *path)
{
    uint8_t guarded[GUARD + sizeof HOUSE + GUARD], file[sizeof HOUSE + 1], *own = filled(sizeof HOUSE, 0xa5);
    size_t i;
    memset(guarded, 0xa5, sizeof guarded);
    nurimkkot_house_settings(guarded + GUARD);
    nurimkkot_house_settings(own);
    expect(memcmp(guarded + GUARD, HOUSE, sizeof HOUSE) == 0 && memcmp(own, HOUSE, sizeof HOUSE) == 0, "document 01's board", 0);
    for (i = 0; i < GUARD; i++)
        expect(guarded[i] == 0xa5 && guarded[GUARD + sizeof HOUSE + i] == 0xa5, "guards around document 01's board", (long)i);
    expect(read_file(path, 0, file, sizeof file) == sizeof HOUSE && memcmp(file, HOUSE, sizeof HOUSE) == 0, path, 0);
    free(own);
}

/* ---- the reader */

/* What a settings sheet says: all but the number is 0 where it is refused. */
struct said {
    uint8_t number;
    uint16_t numbers[NURIMKKOT_SETTINGS_NUMBERS];
    uint8_t entries[NURIMKKOT_MOST_ENTRIES];
};

/* The same by the layout in docs/SHEETS.md. */
static struct said said_by(const uint8_t *sheet, size_t length)
{
    struct said said = {0, {0}, {0}};
    said.number = settings_number(sheet, length);
    if (said.number != 0)
        return said;
    said.numbers[NURIMKKOT_SETTINGS_VERSION] = sheet[3];
    said.numbers[NURIMKKOT_SETTINGS_BOARD] = sheet[3] == 1 ? 0 : (uint16_t)(sheet[6] + 256 * sheet[7]);
    said.numbers[NURIMKKOT_SETTINGS_ENTRIES] = sheet[5];
    memcpy(said.entries, sheet + length - sheet[5], sheet[5]);
    return said;
}

/* Reads a sheet between guards and into blocks of their own. Gives what it says. */
static struct said reads(const char *what, const void *bytes, size_t length)
{
    struct said wanted = said_by(bytes, length);
    uint8_t entries[GUARD + sizeof wanted.entries + GUARD], *own_entries = filled(sizeof wanted.entries, 0xa5), *sheet = copy_of(bytes, length);
    uint16_t numbers[NURIMKKOT_SETTINGS_NUMBERS + 2], *own_numbers = filled(sizeof wanted.numbers, 0xa5);
    size_t i;
    memset(entries, 0xa5, sizeof entries);
    memset(numbers, 0xa5, sizeof numbers);
    expect(nurimkkot_read_settings(sheet, length, numbers + 1, entries + GUARD) == wanted.number, what, wanted.number);
    expect(nurimkkot_read_settings(sheet, length, own_numbers, own_entries) == wanted.number, what, wanted.number);
    for (i = 0; i < NURIMKKOT_SETTINGS_NUMBERS; i++)
        expect(numbers[1 + i] == wanted.numbers[i] && own_numbers[i] == wanted.numbers[i], what, (long)i);
    for (i = 0; i < NURIMKKOT_MOST_ENTRIES; i++)
        expect(entries[GUARD + i] == wanted.entries[i] && own_entries[i] == wanted.entries[i], what, (long)i);
    expect(numbers[0] == 0xa5a5 && numbers[NURIMKKOT_SETTINGS_NUMBERS + 1] == 0xa5a5, "guards around the numbers", (long)length);
    for (i = 0; i < GUARD; i++)
        expect(entries[i] == 0xa5 && entries[GUARD + sizeof wanted.entries + i] == 0xa5, "guards around the entries", (long)i);
    free(own_entries);
    free(own_numbers);
    give_back(sheet, bytes, length);
    read_as[wanted.number]++;
    return wanted;
}

/* A sheet cut short at every length, and with every value at each of its bytes. */
static void damaged(const uint8_t *whole, size_t length)
{
    uint8_t sheet[NURIMKKOT_MOST_SETTINGS];
    size_t i;
    unsigned value;
    for (i = 0; i <= length; i++)
        reads("cut short", whole, i);
    for (i = 0; i < length; i++)
        for (value = 0; value < 256; value++) {
            memcpy(sheet, whole, length);
            sheet[i] = (uint8_t)value;
            reads("one byte changed", sheet, length);
        }
}

static void reader(void)
{
    uint8_t sheet[8 + 255] = {'L', 'X', 'T'};
    size_t i;
    unsigned count;
    for (i = 0; i < BOARD_COUNT; i++)
        expect(reads(BOARDS[i].what, BOARDS[i].bytes, BOARDS[i].length).number == BOARDS[i].number, BOARDS[i].what, BOARDS[i].number);
    damaged(HOUSE, sizeof HOUSE);
    damaged(SECOND, sizeof SECOND);
    for (i = 6; i < sizeof sheet; i++)
        sheet[i] = (uint8_t)(31 - i % 32);
    for (count = 0; count < 256; count++)
        for (sheet[3] = 1; sheet[3] <= 2; sheet[3]++) {
            size_t head = sheet[3] == 1 ? 6 : 8;
            sheet[5] = (uint8_t)count;
            expect(NURIMKKOT_SETTINGS_LENGTH(sheet[3], count) == head + count, "a length", (long)count);
            expect(reads("by count", sheet, head + count).number == (count > 8 ? 73 : 0), "the count", (long)count);
        }
}

/* ---- the writer */

struct input {
    uint16_t version, board;
    const uint8_t *entries;
    size_t count;
};

static size_t needed(const struct input *in)
{
    return (in->version == 2 ? 8 : 6) + in->count;
}

/* The number that the writer has to return. */
static uint8_t number_of(const struct input *in, size_t room)
{
    size_t i;
    if ((in->version != 1 && in->version != 2) || (in->version == 1 && in->board != 0))
        return 72;
    if (in->count > 8)
        return 73;
    for (i = 0; i < in->count; i++)
        if (in->entries[i] > 31)
            return 75;
    return room < needed(in) ? 2 : 0;
}

/* The bytes of the sheet, as docs/SHEETS.md lists them. */
static void encode(const struct input *in, uint8_t *at)
{
    memcpy(at, "LXT", 3);
    at[3] = (uint8_t)in->version;
    at[4] = 0;
    at[5] = (uint8_t)in->count;
    if (in->version == 2) {
        at[6] = (uint8_t)(in->board % 256);
        at[7] = (uint8_t)(in->board / 256);
    }
    memcpy(at + needed(in) - in->count, in->entries, in->count);
}

/* Writes from a list of its own into a buffer. */
static uint8_t call(const struct input *in, uint8_t *sheet, size_t room, size_t *length)
{
    uint8_t *entries = copy_of(in->entries, in->count);
    uint8_t number = nurimkkot_write_settings(in->version, in->board, entries, in->count, sheet, room, length);
    give_back(entries, in->entries, in->count);
    return number;
}

/* Writes into a buffer between guards: nothing but the sheet and its length is written. */
static void write_guarded(const char *what, const struct input *in, size_t room, uint8_t number, uint8_t fill)
{
    size_t size = room + 2 * GUARD, lengths[3], untouched;
    uint8_t *block = filled(size, fill), *wanted = filled(size, fill);
    memset(&untouched, fill, sizeof untouched);
    memset(lengths, fill, sizeof lengths);
    if (number == 0)
        encode(in, wanted + GUARD);
    expect(call(in, block + GUARD, room, lengths + 1) == number, what, number);
    expect(memcmp(block, wanted, size) == 0, what, (long)room);
    expect(lengths[1] == (number == 0 ? needed(in) : 0), what, (long)lengths[1]);
    expect(lengths[0] == untouched && lengths[2] == untouched, "guards around the length", (long)room);
    free(wanted);
    free(block);
}

/* A written sheet passes 70 to 75 of the judge, which comes to the missing exercise, and reads back as what was written. */
static void reads_back(const char *what, const struct input *in, const uint8_t *sheet)
{
    static uint8_t route[NURIMKKOT_ROUTE_SIZE];
    static uint32_t tries[NURIMKKOT_TRIES];
    uint64_t numbers[NURIMKKOT_NUMBERS];
    struct said said = reads(what, sheet, needed(in));
    nurimkkot_judge(sheet, needed(in), NULL, 0, NULL, 0, route, sizeof route, tries, NURIMKKOT_TRIES, numbers);
    expect(numbers[NURIMKKOT_NUMBER] == 10, "a written sheet passes 70 to 75", (long)numbers[NURIMKKOT_NUMBER]);
    expect(said.number == 0 && said.numbers[NURIMKKOT_SETTINGS_VERSION] == in->version && said.numbers[NURIMKKOT_SETTINGS_BOARD] == in->board
           && said.numbers[NURIMKKOT_SETTINGS_ENTRIES] == in->count && memcmp(said.entries, in->entries, in->count) == 0, what, said.number);
}

/* Writes into a block of exactly `room` bytes, the length in one too, and reads it back. */
static void write_alone(const char *what, const struct input *in, size_t room, uint8_t number)
{
    uint8_t *wanted = filled(room + 1, 0x3c), *sheet = copy_of(wanted, room);
    size_t *length = filled(sizeof *length, 0x3c);
    expect(call(in, sheet, room, length) == number, what, number);
    expect(*length == (number == 0 ? needed(in) : 0), what, (long)*length);
    if (number == 0) {
        encode(in, wanted);
        reads_back(what, in, sheet);
    }
    expect(memcmp(sheet, wanted, room) == 0, what, (long)room);
    free(room ? sheet : sheet - BEHIND);
    free(wanted);
    free(length);
}

/* The writer returns this number and writes what it has to. Fills of which each byte is the other one's inverse let no byte that is written
 * pass unseen. */
static void writes(const char *what, const struct input *in, size_t room, uint8_t number)
{
    if (number_of(in, room) != number) {
        expect(0, "the test itself expects another number", number);
        return;
    }
    write_guarded(what, in, room, number, 0xa5);
    write_guarded(what, in, room, number, 0x5a);
    write_alone(what, in, room, number);
    written_as[number]++;
}

/* Entries for any case, no two neighbours the same. */
static uint8_t entries[MOST];

static void fill(void)
{
    size_t i;
    for (i = 0; i < MOST; i++)
        entries[i] = (uint8_t)(31 - (7 * i + i / 32) % 32);
}

/* 73 and 2: both sides of eight entries and of the room that is needed. Counts of which the low bits alone would be a small count too. */
static void rooms(void)
{
    static const size_t counts[] = {0, 1, 2, 3, 4, 5, 6, 7, 8, 9, 10, 255, 256, 264, 65535, 65536, 65544, MOST};
    struct input in = {1, 0, entries, 0};
    size_t i, k;
    fill();
    for (in.version = 1; in.version <= 2; in.version++)
        for (i = 0; i < sizeof counts / sizeof counts[0]; i++) {
            in.count = counts[i];
            for (k = 0; k < 20; k++)
                writes("by count and room", &in, k, in.count > 8 ? 73 : k < needed(&in) ? 2 : 0);
            writes("by count, a long buffer", &in, needed(&in) + 1000, in.count > 8 ? 73 : 0);
        }
}

/* 72: versions and boards, those of which the low byte alone would be good among them. */
static void versions(void)
{
    static const uint16_t version[] = {0, 1, 2, 3, 255, 256, 257, 258, 512, 513, 514, 32769, 65535};
    static const uint16_t board[] = {0, 1, 2, 255, 256, 258, 32768, 65535};
    size_t i, k;
    fill();
    for (i = 0; i < sizeof version / sizeof version[0]; i++)
        for (k = 0; k < sizeof board / sizeof board[0]; k++) {
            struct input in = {version[i], board[k], entries, 5};
            writes("by version and board", &in, 20, version[i] == 2 || (version[i] == 1 && board[k] == 0) ? 0 : 72);
        }
}

/* 75: every value in each of eight entries, and behind the last one. */
static void flags(void)
{
    struct input in = {1, 0, entries, 8};
    size_t i;
    unsigned value;
    fill();
    for (in.version = 1; in.version <= 2; in.version++)
        for (i = 0; i < 9; i++) {
            uint8_t stood = entries[i];
            for (value = 0; value < 256; value++) {
                entries[i] = (uint8_t)value;
                writes("by flags", &in, needed(&in), i < 8 && value > 31 ? 75 : 0);
            }
            entries[i] = stood;
        }
}

/* The refusals in their order: every set of faults, with each fault of the version. */
static void order(void)
{
    static const uint8_t numbers[] = {72, 73, 75, 2, 0};
    static const uint16_t version[] = {0, 3, 1}, board[] = {0, 2, 1};
    int faults, first, k;
    for (faults = 0; faults < 16; faults++)
        for (k = 0; k < 3; k++) {
            struct input in = {2, 2, entries, 7};
            fill();
            if (faults & 1) {
                in.version = version[k];
                in.board = board[k];
            }
            if (faults & 2)
                in.count = 9;
            if (faults & 4)
                entries[6] = 32;
            for (first = 0; first < 4 && !(faults & 1 << first); first++)
                continue;
            writes("the order of refusals", &in, needed(&in) - (faults & 8 ? 1 : 0), numbers[first]);
        }
}

/* A sheet that is read is written again to the same bytes. Gives whether it was. */
static int again(const char *what, const uint8_t *sheet, size_t length)
{
    struct said said = reads(what, sheet, length);
    struct input in = {said.numbers[NURIMKKOT_SETTINGS_VERSION], said.numbers[NURIMKKOT_SETTINGS_BOARD], said.entries,
                       said.numbers[NURIMKKOT_SETTINGS_ENTRIES]};
    uint8_t buffer[NURIMKKOT_MOST_SETTINGS];
    size_t written;
    if (said.number != 0)
        return 0;
    writes(what, &in, length, 0);
    expect(call(&in, buffer, sizeof buffer, &written) == 0 && written == length && memcmp(buffer, sheet, length) == 0, what, (long)length);
    return 1;
}

int main(int argc, char **argv)
{
    static const uint8_t read[] = {0, 70, 71, 72, 73, 74, 75}, written[] = {0, 2, 72, 73, 75};
    static uint8_t file[ROOM];
    int i, files = 0;
    size_t k;
    if (argc < 2)
        return 2;
    house(argv[1]);
    reader();
    rooms();
    versions();
    flags();
    order();
    for (k = 0; k < BOARD_COUNT; k++)
        again(BOARDS[k].what, (const uint8_t *)BOARDS[k].bytes, BOARDS[k].length);
    for (i = 1; i < argc; i++)
        files += again(argv[i], file, read_file(argv[i], 0, file, sizeof file));
    expect(files >= 5 && argc - 1 - files >= 6, "files of both sorts", files);
    for (k = 0; k < sizeof read; k++)
        expect(read_as[read[k]] > 0, "every number of the reader", read[k]);
    for (k = 0; k < sizeof written; k++)
        expect(written_as[written[k]] > 0, "every number of the writer", written[k]);
    if (failures == 0)
        printf("C: the settings sheet is read and written as expected; %d of %d files written again\n", files, argc - 1);
    return failures != 0;
}
