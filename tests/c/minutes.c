/* Counts the minutes on logs as the tablet would: minutes LOG .. Every number, 0 and 80 to 87, at both sides of its limits and in their order.
 * All that is written is held against a plain computation. The rows, the entry numbers and the two counts hold chance bytes, between guards
 * and then each in a block of its own, so that valgrind sees a byte too far. The log stands at the end of a page that can't be written, with
 * no access behind it, and then in a block of its own. */
#define _DEFAULT_SOURCE
#include "sheets.h"
#include "logs.h"
#include "chance.h"
#include "../../c/sheet_files.h"

#include <sys/mman.h>

#define ROWS NURIMKKOT_CREDIT_ROWS
#define ENTRIES NURIMKKOT_LOG_ENTRIES
#define WEEK 10080

/* A row is two 32-bit numbers without gaps, in an array too. */
HOLDS(credit_size, sizeof(struct nurimkkot_credit) == 8 && sizeof((struct nurimkkot_credit *)0)->minutes == 4);
HOLDS(credit_order, offsetof(struct nurimkkot_credit, apprentice) == 0 && offsetof(struct nurimkkot_credit, minutes) == 4);

/* ---- what a call has to give */

/* What a call is given: a log, and lists of so many rows and entry numbers. */
struct replay {
    const uint8_t *bytes;
    size_t length, rows, entries;
};

/* What it has to return and to write. */
struct outcome {
    uint8_t number;
    size_t rows_filled, entries_filled;
    struct nurimkkot_credit rows[ROWS];
    uint16_t entries[ENTRIES];
};

static uint32_t number_at(const uint8_t *at, int bytes)
{
    return bytes == 0 ? 0 : at[0] + 256 * number_at(at + 1, bytes - 1);
}

/* An entry without its verdict and its login, which change nothing. */
static struct entry entry_at(const struct replay *r, size_t i)
{
    const uint8_t *at = r->bytes + 7 + 14 * i;
    struct entry entry = {0, 0, 0, 0, 0};
    entry.apprentice = number_at(at, 4);
    entry.opening = (uint16_t)number_at(at + 6, 2);
    entry.closing = (uint16_t)number_at(at + 8, 2);
    return entry;
}

static int by_number(const void *left, const void *right)
{
    uint32_t a = *(const uint32_t *)left, b = *(const uint32_t *)right;
    return (a > b) - (a < b);
}

/* The number of 80 to 85 or 87 that applies, or 0, and the count of entries. */
static uint8_t refusal_of(const struct replay *r, size_t *count)
{
    size_t i;
    *count = 0;
    if (r->rows != ROWS || r->entries != ENTRIES)
        return 87;
    if (r->length < 7)
        return 80;
    if (memcmp(r->bytes, "LXL", 3) != 0)
        return 81;
    if (number_at(r->bytes + 3, 2) != 1)
        return 82;
    *count = number_at(r->bytes + 5, 2);
    if (*count > ENTRIES)
        return 83;
    if (r->length != 7 + 14 * *count)
        return 84;
    for (i = 0; i < *count; i++) {
        struct entry entry = entry_at(r, i);
        if (entry.opening > WEEK || entry.closing > WEEK || entry.apprentice == 0)
            return 85;
    }
    return 0;
}

/* The apprentices, rising, then each minute of the week for each of them. */
static struct outcome outcome_of(const struct replay *r)
{
    static uint8_t covered[ROWS][WEEK];
    static const struct outcome none;
    struct outcome wanted = none;
    uint32_t all[ENTRIES];
    size_t count, i, j;
    wanted.number = refusal_of(r, &count);
    if (wanted.number != 0)
        return wanted;
    for (i = 0; i < count; i++)
        all[i] = entry_at(r, i).apprentice;
    qsort(all, count, sizeof all[0], by_number);
    for (i = 0; i < count; i++) {
        if (i > 0 && all[i] == all[i - 1])
            continue;
        if (wanted.rows_filled == ROWS) {
            wanted = none;
            wanted.number = 86;
            return wanted;
        }
        memset(covered[wanted.rows_filled], 0, WEEK);
        wanted.rows[wanted.rows_filled++].apprentice = all[i];
    }
    for (i = 0; i < count; i++) {
        struct entry entry = entry_at(r, i);
        for (j = 0; wanted.rows[j].apprentice != entry.apprentice; j++)
            continue;
        if (entry.closing <= entry.opening)
            wanted.entries[wanted.entries_filled++] = (uint16_t)i;
        for (; entry.opening < entry.closing; entry.opening++) {
            wanted.rows[j].minutes += !covered[j][entry.opening];
            covered[j][entry.opening] = 1;
        }
    }
    return wanted;
}

/* ---- one call */

/* Room for a log, with a page of no access behind it. */
#define PAGE 4096
#define ROOM (32 * PAGE)
static uint8_t *room;

static void make_room(void)
{
    room = mmap(NULL, ROOM + PAGE, PROT_NONE, MAP_PRIVATE | MAP_ANONYMOUS, -1, 0);
    if (room == MAP_FAILED)
        exit(2);
}

/* A copy of the log at the end of the room, which can't be written then. */
static const uint8_t *read_only(const struct replay *r)
{
    uint8_t *copy = room + ROOM - r->length;
    if (mprotect(room, ROOM, PROT_READ | PROT_WRITE) != 0)
        exit(2);
    memcpy(copy, r->bytes, r->length);
    if (mprotect(room, ROOM, PROT_READ) != 0)
        exit(2);
    return copy;
}

/* What is lent: chance bytes, of which so many at both ends are guards, and what they have to be after the call. */
struct lent {
    uint8_t *bytes, *wanted;
    size_t guard, size;
};

static struct lent lend(size_t size, size_t guard)
{
    struct lent lent;
    size_t i;
    lent.guard = guard;
    lent.size = size + 2 * guard;
    lent.wanted = malloc(lent.size + 4);
    if (lent.wanted == NULL)
        exit(2);
    for (i = 0; i < lent.size; i += 4)
        put(lent.wanted + i, chance(4294967295u), 4);
    lent.bytes = copy_of(lent.wanted, lent.size);
    return lent;
}

static void *start_of(const struct lent *lent)
{
    return lent->bytes + lent->guard;
}

/* Sees that what is lent begins with so many bytes and is unchanged behind them and in its guards, and gives it back. */
static void filled(const char *what, struct lent *lent, const void *with, size_t length)
{
    size_t i;
    memcpy(lent->wanted + lent->guard, with, length);
    for (i = 0; i < lent->size && lent->bytes[i] == lent->wanted[i]; i++)
        continue;
    expect(i == lent->size, what, (long)i - (long)lent->guard);
    free(lent->size ? lent->bytes : lent->bytes - BEHIND);
    free(lent->wanted);
}

/* Makes the call, with guards or with a block of its own for each. The guards leave each pointer no better aligned than its type asks. */
static void call(const char *what, const struct replay *r, const struct outcome *wanted, int guarded)
{
    struct lent rows = lend(r->rows * sizeof(struct nurimkkot_credit), guarded ? 13 * sizeof(uint32_t) : 0);
    struct lent entries = lend(r->entries * sizeof(uint16_t), guarded ? 13 * sizeof(uint16_t) : 0);
    struct lent row_count = lend(sizeof(size_t), guarded ? 13 * sizeof(size_t) : 0);
    struct lent entry_count = lend(sizeof(size_t), guarded ? 13 * sizeof(size_t) : 0);
    uint8_t *own = copy_of(r->bytes, r->length);
    int before = failures;
    uint8_t number = nurimkkot_minutes(guarded ? read_only(r) : own, r->length, start_of(&rows), r->rows, start_of(&entries), r->entries,
                                       start_of(&row_count), start_of(&entry_count));
    expect(number == wanted->number, "the number", number);
    filled("a byte of the rows", &rows, wanted->rows, wanted->rows_filled * sizeof wanted->rows[0]);
    filled("a byte of the entry numbers", &entries, wanted->entries, wanted->entries_filled * sizeof wanted->entries[0]);
    filled("a byte of the count of rows", &row_count, &wanted->rows_filled, sizeof(size_t));
    filled("a byte of the count of entry numbers", &entry_count, &wanted->entries_filled, sizeof(size_t));
    give_back(own, r->bytes, r->length);
    expect(failures == before, what, wanted->number);
}

/* How often each number was returned, and the outcome of the last call. */
static long returned[256];
static struct outcome last;

/* The call returns this number and writes what it has to. */
static void gives(const char *what, const struct replay *r, uint8_t number)
{
    last = outcome_of(r);
    if (last.number != number) {
        expect(0, "the test itself expects another number", number);
        expect(0, what, last.number);
        return;
    }
    call(what, r, &last, 0);
    call(what, r, &last, 1);
    returned[number]++;
}

/* ---- logs */

/* The log of the case at hand, and entries to put on it: twice as many as there may be. */
static uint8_t bytes[ROOM];
static struct entry some[2 * ENTRIES];

static struct replay log_of(const struct entry *entries, size_t count)
{
    struct replay r = {bytes, 0, ROWS, ENTRIES};
    r.length = put_log(bytes, entries, count);
    return r;
}

/* The i-th of some numbers, low and high ones mixed; none is 0. */
static uint32_t apprentice(size_t i)
{
    return (uint32_t)(i + 1) * 0x9e3779b1u;
}

static struct entry entry_of(uint32_t who, size_t opening, size_t closing)
{
    struct entry entry;
    entry.apprentice = who;
    entry.verdict = (uint16_t)chance(65536);
    entry.opening = (uint16_t)opening;
    entry.closing = (uint16_t)closing;
    entry.login = chance(3) ? apprentice(chance(ROWS)) : 0;
    return entry;
}

/* The last call filled these rows; `minutes` has one number for each. */
static void credited(const char *what, size_t count, const uint32_t *apprentices, const uint32_t *minutes)
{
    size_t i;
    expect(last.rows_filled == count, what, (long)last.rows_filled);
    for (i = 0; i < count; i++)
        expect(last.rows[i].apprentice == apprentices[i] && last.rows[i].minutes == minutes[i], what, (long)i);
}

/* Logs worked out by hand. */
static void by_hand(void)
{
    /* 7 is credited for what 9 logged in; entries of one apprentice overlap, touch and stand in each other; two share a minute. */
    static const struct entry week[] = {
        {9, 0, 600, 660, 9}, {7, 63, 630, 690, 9}, {7, 0, 600, 640, 7}, {7, 0, 610, 620, 7}, {7, 0, 690, 700, 12}, {12, 50, 700, 700, 12},
        {4294967295u, 0, 0, 10080, 0}, {2147483648u, 65535, 10079, 10080, 1}, {9, 1, 10080, 10080, 7}, {9, 1, 660, 659, 7},
        {256, 0, 10080, 0, 4294967295u}, {255, 0, 0, 1, 13},
    };
    static const uint32_t apprentices[] = {7, 9, 12, 255, 256, 2147483648u, 4294967295u}, minutes[] = {100, 60, 0, 1, 0, 1, 10080};
    static const uint16_t numbers[] = {5, 8, 9, 10};
    struct replay r = log_of(week, 0);
    gives("no entries", &r, 0);
    credited("no entries", 0, NULL, NULL);
    expect(last.entries_filled == 0, "no entries", (long)last.entries_filled);
    r = log_of(week, sizeof week / sizeof week[0]);
    gives("by hand", &r, 0);
    credited("by hand", 7, apprentices, minutes);
    expect(last.entries_filled == 4 && memcmp(last.entries, numbers, sizeof numbers) == 0, "by hand", (long)last.entries_filled);
}

/* 80 to 84: a log cut at every place, each bit of its head the other way, counts and lengths at both sides of their limits. */
static void heads(void)
{
    static const struct { size_t count, length; uint8_t number; } cases[] = {
        {0, 7, 0}, {0, 8, 84}, {0, 21, 84}, {0, 7 + 65536, 84}, {1, 7, 84}, {1, 20, 84}, {1, 21, 0}, {1, 22, 84}, {1, 35, 84}, {256, 3591, 0},
        {256, 7, 84}, {1023, 14329, 0}, {1023, 14343, 84}, {1024, 14342, 84}, {1024, 14343, 0}, {1024, 14344, 84}, {1024, 14357, 84},
        {1024, 14343 + 65536, 84}, {1025, 14357, 83}, {1025, 14343, 83}, {1025, 7, 83}, {1280, 17927, 83}, {2048, 28679, 83}, {32768, 7, 83},
        {65535, 7, 83},
    };
    struct replay r;
    size_t i, count;
    for (i = 0; i < 2 * ENTRIES; i++)
        some[i] = entry_of(apprentice(i % 3), i, i + 5 * (i % 2));
    for (count = 0; count <= 3; count += 3) {
        for (i = NURIMKKOT_LOG_LENGTH(count); i-- > 0;) {
            r = log_of(some, count);
            r.length = i;
            gives("cut short", &r, i < 7 ? 80 : 84);
        }
        for (i = 0; i < 8 * 7; i++) {
            r = log_of(some, count);
            bytes[i / 8] ^= (uint8_t)(1u << (i % 8));
            gives("a bit of the head", &r, i < 24 ? 81 : i < 40 ? 82 : number_at(bytes + 5, 2) > ENTRIES ? 83 : 84);
        }
    }
    for (i = 0; i < sizeof cases / sizeof cases[0]; i++) {
        r = log_of(some, cases[i].count < 2 * ENTRIES ? cases[i].count : 2 * ENTRIES);
        put(bytes + 5, (uint32_t)cases[i].count, 2);
        r.length = cases[i].length;
        gives("count and length", &r, cases[i].number);
    }
}

/* 85: each minute and the apprentice of one entry among others, in one that covers minutes and in one that covers none. */
static void fields(void)
{
    static const size_t places[][2] = {{1, 0}, {5, 0}, {5, 2}, {5, 4}, {ENTRIES, ENTRIES - 1}};
    static const size_t minutes[] = {0, 1, 255, 256, 10079, 10080, 10081, 10082, 10080 + 256, 10080 + 32768, 65535};
    static const uint32_t numbers[] = {1, 256, 65536, 1u << 24, 1u << 31, 4294967295u, 0};
    struct replay r;
    size_t place, i, k;
    for (i = 0; i < ENTRIES; i++)
        some[i] = entry_of(apprentice(i % 2), i, i + 2);
    for (place = 0; place < sizeof places / sizeof places[0]; place++) {
        struct entry *entry = some + places[place][1], kept = *entry;
        for (i = 0; i < sizeof minutes / sizeof minutes[0]; i++)
            for (k = 0; k < sizeof minutes / sizeof minutes[0]; k++) {
                *entry = entry_of(kept.apprentice, minutes[i], minutes[k]);
                r = log_of(some, places[place][0]);
                gives("minutes of an entry", &r, minutes[i] > WEEK || minutes[k] > WEEK ? 85 : 0);
            }
        for (i = 0; i < sizeof numbers / sizeof numbers[0]; i++)
            for (k = 0; k < 2; k++) {
                *entry = entry_of(numbers[i], 9, 9 + k);
                r = log_of(some, places[place][0]);
                gives("the apprentice of an entry", &r, numbers[i] == 0 ? 85 : 0);
            }
        *entry = kept;
    }
}

/* So many entries of so many apprentices; the last one is the last entry's alone, and covers no minute. */
static struct replay crowd(size_t entries, size_t apprentices)
{
    size_t i;
    for (i = 0; i < entries; i++)
        some[i] = entry_of(apprentice(i % (apprentices - 1)), i * 9, i * 9 + i % 15);
    some[entries - 1] = entry_of(apprentice(apprentices - 1), 100, 100);
    return log_of(some, entries);
}

/* 86: 64 and 65 apprentices, on short and on long logs; as many entries as apprentices, their numbers rising and falling. */
static void apprentices(void)
{
    static const size_t counts[] = {2, 63, 64, 65, 66, 255, 256, 257, ENTRIES};
    struct replay r;
    size_t i, k, falls;
    for (i = 0; i < sizeof counts / sizeof counts[0]; i++) {
        size_t count = counts[i];
        r = crowd(ENTRIES, count);
        gives("many entries", &r, count > ROWS ? 86 : 0);
        expect(last.rows_filled == (count > ROWS ? 0 : count), "the rows of many entries", (long)count);
        for (falls = 0; falls < 2; falls++) {
            for (k = 0; k < count; k++)
                some[k] = entry_of((uint32_t)(1 + (falls ? count - 1 - k : k)), k, k + k % 2);
            r = log_of(some, count);
            gives("an entry each", &r, count > ROWS ? 86 : 0);
        }
    }
}

/* Full logs: every entry covers no minute, or the whole week, of one apprentice or of 64. */
static void full(void)
{
    size_t people, week, i;
    for (people = 1; people <= ROWS; people += ROWS - 1)
        for (week = 0; week < 2; week++) {
            struct replay r;
            for (i = 0; i < ENTRIES; i++)
                some[i] = entry_of(apprentice(i % people), 0, week * WEEK);
            r = log_of(some, ENTRIES);
            gives("a full log", &r, 0);
            expect(last.rows_filled == people && last.entries_filled == (week ? 0 : ENTRIES), "the lists of a full log", (long)people);
            for (i = 0; i < people; i++)
                expect(last.rows[i].minutes == week * WEEK, "the minutes of a full log", (long)i);
        }
}

/* Each of these minutes as opening and as closing; then every two entries of one apprentice within four minutes, at three times of the week.
 * 64 apprentices at a time. */
static void spans(void)
{
    static const size_t minutes[] = {0, 1, 7, 8, 9, 31, 32, 33, 63, 64, 65, 127, 128, 255, 256, 10047, 10048, 10049, 10078, 10079, 10080};
    static const size_t times[] = {0, 62, 10076};
    size_t all = sizeof minutes / sizeof minutes[0], i, k, n, time;
    struct replay r;
    for (i = 0; i < all * all; i += ROWS) {
        for (k = 0; k < ROWS; k++)
            some[k] = entry_of(apprentice(k), minutes[(i + k) / all % all], minutes[(i + k) % all]);
        r = log_of(some, ROWS);
        gives("an opening and a closing", &r, 0);
    }
    for (time = 0; time < sizeof times / sizeof times[0]; time++)
        for (i = 0; i < 625; i += ROWS) {
            for (k = 0; k < ROWS; k++) {
                n = i + k;
                some[k] = entry_of(apprentice(k), times[time] + n % 5, times[time] + n / 5 % 5);
                some[ROWS + k] = entry_of(apprentice(k), times[time] + n / 25 % 5, times[time] + n / 125 % 5);
            }
            r = log_of(some, 2 * ROWS);
            gives("two entries", &r, 0);
        }
}

/* Lists of other lengths, beside a log that is good and one that is not; 87 comes first. */
static void lists(void)
{
    static const size_t others[][2] = {{0, 0}, {0, 1024}, {1, 1024}, {63, 1024}, {65, 1024}, {128, 1024}, {320, 1024}, {1024, 1024},
                                       {65600, 1024}, {64, 0}, {64, 1}, {64, 64}, {64, 1023}, {64, 1025}, {64, 1280}, {64, 2048},
                                       {64, 66560}, {1024, 64}, {63, 1025}};
    size_t i;
    for (i = 0; i < sizeof others / sizeof others[0]; i++) {
        struct replay r = crowd(5, 4);
        r.rows = others[i][0];
        r.entries = others[i][1];
        gives("lists of other lengths", &r, 87);
        r.length = 0;
        gives("lists of other lengths and no log", &r, 87);
    }
}

/* Every set of refusals: the first of 87, 80 to 86 is given. A minute too high is in the first or in the last entry, and the 65th apprentice
 * between them. */
static void order(void)
{
    unsigned set, first;
    for (set = 0; set < 512; set++) {
        struct replay r = crowd(80, ROWS);
        some[80] = entry_of(apprentice(set & 128 ? ROWS : 0), 5, 9);
        some[81] = entry_of(apprentice(1), 5, 9);
        if (set & 64)
            some[set & 256 ? 0 : 81].closing = WEEK + 1;
        r = log_of(some, 82);
        r.length += set & 32 ? 1 : 0;
        if (set & 16)
            put(bytes + 5, 1025, 2);
        if (set & 8)
            put(bytes + 3, 2, 2);
        if (set & 4)
            bytes[2] = 'C';
        if (set & 2)
            r.length = 6;
        r.rows -= set & 1;
        for (first = 0; first < 8 && !(set >> first & 1); first++)
            continue;
        gives("a set of refusals", &r, first == 8 ? 0 : first == 0 ? 87 : (uint8_t)(79 + first));
    }
}

/* Logs that look random; some with a byte changed, cut or longer, or with a fault in an entry. */
static void random_logs(void)
{
    int round;
    for (round = 0; round < 600; round++) {
        size_t count = chance(chance(8) ? 12 : ENTRIES + 1), people = 1 + chance(chance(4) ? 4 : 66), from = chance(WEEK - 300), i;
        struct replay r;
        for (i = 0; i < count; i++)
            some[i] = entry_of(apprentice(chance((uint32_t)people)), from + chance(200), from + chance(300));
        if (count > 0 && chance(4) == 0)
            some[chance((uint32_t)count)] = entry_of(chance(2), chance(WEEK + 3), chance(chance(2) ? WEEK + 3 : 65536));
        r = log_of(some, count);
        if (chance(8) == 0)
            bytes[chance((uint32_t)r.length)] = (uint8_t)chance(256);
        if (chance(8) == 0)
            r.length = r.length - 2 + chance(5);
        gives("a random log", &r, outcome_of(&r).number);
    }
}

int main(int argc, char **argv)
{
    static uint8_t file[LOG_ROOM];
    struct replay r = {file, 0, ROWS, ENTRIES};
    long logs = 0, refused;
    int number;
    make_room();
    by_hand();
    heads();
    fields();
    apprentices();
    full();
    spans();
    lists();
    order();
    random_logs();
    for (number = 0; number < 256; number++) {
        expect((returned[number] > 0) == (number == 0 || (number >= 80 && number <= 87)), "the numbers returned", number);
        logs += returned[number];
    }
    refused = logs - returned[0];
    for (number = 1; number < argc; number++) {
        r.length = read_file(argv[number], 0, file, sizeof file);
        gives(argv[number], &r, outcome_of(&r).number);
    }
    if (failures == 0)
        printf("C: minutes credited as the words say, on %ld logs, %ld of them refused, and on %d files\n", logs, refused, argc - 1);
    return failures != 0;
}
