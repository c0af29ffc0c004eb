/* The judge's list of tries: tries SETTINGS EXERCISE ANSWER .. Every number of the list, and every byte of the route, is held against its
 * definition, for which the lists of entries that a LAB's needs may have are written down, need by need, and looked at one by one: on worked
 * cases with known numbers, on boards and LABs that look random, many of them with several needs of one net, and on the files. Refusal 3 at both
 * sides of 1,024 and in its order; every verdict but 0 and 65 leaves the list as it is. The list stands between guards and then in a block of
 * its own, so that valgrind sees a number too far. */
#include "boards.h"
#include "chance.h"
#include "sharing.h"
#include "../../c/sheet_files.h"

#define LABS NURIMKKOT_TRIES
#define CELLS 512
#define ROLES 5
/* Two clk, two ena, two aclr, sclr and sload. */
#define MOST_NEEDS 8

/* So many guard numbers stand on both sides of a list; the number is odd, so that the list is at no address of a larger type. */
#define GUARD 61

/* ---- the definition */

/* A need: its role, as a flag, and its net, whatever the polarity. */
struct need {
    uint8_t role;
    uint16_t net;
};

/* A LAB's needs in their order, and the flags of the board's entries. */
struct lab {
    int needs, entries;
    struct need need[MOST_NEEDS];
    const uint8_t *flags;
};

/* A list of entries: the first goes to a LAB's first need, and so on. */
struct entries {
    int length;
    uint8_t entry[MOST_NEEDS];
};

/* What the search for a LAB's route finds: the earliest way, where there is one, and how many tries there are. */
struct found {
    int has_way;
    struct entries way;
    uint32_t tries;
};

/* All lists of a LAB, where there are no more than these. With needs of different nets there never are. */
#define LISTS 109600
static struct entries lists[LISTS];
static size_t list_count;

/* Whether the next need after a list may have an entry: it serves the need's role, and no need of another net has it. */
static int goes_on(const struct lab *lab, const struct entries *list, uint8_t entry)
{
    const struct need *next = &lab->need[list->length];
    int i;
    if (!(lab->flags[entry] & next->role))
        return 0;
    for (i = 0; i < list->length; i++)
        if (list->entry[i] == entry && lab->need[i].net != next->net)
            return 0;
    return 1;
}

/* Writes down all lists for the first one or more needs of a LAB, shorter ones first. Gives whether there is room for them. */
static int write_lists(const struct lab *lab)
{
    static const struct entries empty;
    struct entries list = empty;
    size_t next = 0;
    uint8_t entry;
    list_count = 0;
    for (;;) {
        for (entry = 0; list.length < lab->needs && entry < lab->entries; entry++)
            if (goes_on(lab, &list, entry)) {
                if (list_count == LISTS)
                    return 0;
                lists[list_count] = list;
                lists[list_count].entry[list.length] = entry;
                lists[list_count++].length++;
            }
        if (next == list_count)
            return 1;
        list = lists[next++];
    }
}

/* Whether a list stands before another: by the smaller entry at the first need where they differ, or as one that the other extends. */
static int before(const struct entries *a, const struct entries *b)
{
    int i;
    for (i = 0; i < a->length && i < b->length; i++)
        if (a->entry[i] != b->entry[i])
            return a->entry[i] < b->entry[i];
    return a->length < b->length;
}

/* By the lists that are written down: the earliest one for all needs, and how many stand at or before it; all, where there is none. */
static struct found by_lists(const struct lab *lab)
{
    struct found found = {0, {0, {0}}, 0};
    size_t i;
    found.has_way = lab->needs == 0;
    for (i = 0; i < list_count; i++)
        if (lists[i].length == lab->needs && (!found.has_way || before(&lists[i], &found.way))) {
            found.has_way = 1;
            found.way = lists[i];
        }
    for (i = 0; i < list_count; i++)
        found.tries += !found.has_way || !before(&found.way, &lists[i]);
    return found;
}

/* Counts the lists that extend this one, in their order, up to the first that has an entry for each need, which is left in its place. Gives
 * whether there is one. */
static int extend(const struct lab *lab, struct entries *list, uint32_t *count)
{
    uint8_t entry;
    if (list->length == lab->needs)
        return 1;
    for (entry = 0; entry < lab->entries; entry++)
        if (goes_on(lab, list, entry)) {
            list->entry[list->length++] = entry;
            ++*count;
            if (extend(lab, list, count))
                return 1;
            list->length--;
        }
    return 0;
}

static struct found in_order(const struct lab *lab)
{
    struct found found = {0, {0, {0}}, 0};
    found.has_way = extend(lab, &found.way, &found.tries);
    return found;
}

/* What the search has to find, by the lists in their order. Where there is room for all of them, they are written down and compared as well,
 * which has to give the same. */
static struct found found_in(const struct lab *lab)
{
    struct found found = in_order(lab), same;
    if (write_lists(lab)) {
        same = by_lists(lab);
        expect(same.has_way == found.has_way && same.tries == found.tries, "the lists in their order and all at once", (long)same.tries);
        expect(!found.has_way || memcmp(same.way.entry, found.way.entry, (size_t)lab->needs) == 0, "the earliest way of all", lab->needs);
    }
    return found;
}

/* ---- needs of one net */

/* What sorts of LABs were held against the definition, and how many of each. */
enum {
    DIFFERENT_NETS,
    BOTH_POLARITIES,
    TWO_ROLES,
    THREE_NEEDS,
    ALL_OF_ONE_NET,
    TWO_NETS,
    SHARED_ENTRY,
    BY_SHARING_ALONE,
    GIVEN_BACK,
    NOT_SHARED,
    REFUSED,
    SORTS
};
static const char *const SORT_NAMES[SORTS] = {
    "needs of different nets alone",
    "a net in both polarities in one role",
    "a net in two roles",
    "three needs of one net",
    "all needs of one net, three or more",
    "two nets with two needs each",
    "an entry for two needs",
    "a way by sharing alone",
    "an entry for two needs, and one that was given back",
    "a net with two entries, of which one serves both roles",
    "no way, with two needs of one net",
};
static long sorts[SORTS];

/* Whether there would be a way if all needs were of different nets. */
static int way_of_different_nets(struct lab lab)
{
    int i;
    for (i = 0; i < lab.needs; i++)
        lab.need[i].net = (uint16_t)i;
    return in_order(&lab).has_way;
}

/* Notes what two needs of one net make of a LAB. */
static void note_two(const struct lab *lab, const struct found *found, int i, int k, int is[SORTS])
{
    uint8_t roles = lab->need[i].role | lab->need[k].role;
    is[lab->need[i].role == lab->need[k].role ? BOTH_POLARITIES : TWO_ROLES] = 1;
    is[REFUSED] = !found->has_way;
    if (!found->has_way)
        return;
    if (found->way.entry[i] == found->way.entry[k])
        is[SHARED_ENTRY] = 1;
    else if ((lab->flags[found->way.entry[i]] & roles) == roles || (lab->flags[found->way.entry[k]] & roles) == roles)
        is[NOT_SHARED] = 1;
}

/* Notes of what sorts a LAB is. */
static void note(const struct lab *lab, const struct found *found)
{
    int is[SORTS] = {0}, several = 0, most = 0, i, k;
    for (i = 0; i < lab->needs; i++) {
        int same = 1, first = 1;
        for (k = 0; k < lab->needs; k++)
            if (k != i && lab->need[k].net == lab->need[i].net) {
                note_two(lab, found, i, k, is);
                first = first && i < k;
                same++;
            }
        several += first && same > 1;
        most = same > most ? same : most;
    }
    is[DIFFERENT_NETS] = most == 1;
    is[THREE_NEEDS] = most > 2;
    is[ALL_OF_ONE_NET] = most > 2 && most == lab->needs;
    is[TWO_NETS] = several > 1;
    is[GIVEN_BACK] = is[SHARED_ENTRY] && found->tries > (uint32_t)lab->needs;
    is[BY_SHARING_ALONE] = is[SHARED_ENTRY] && !way_of_different_nets(*lab);
    for (i = 0; i < SORTS; i++)
        sorts[i] += is[i];
}

/* ---- sheets as they are read */

/* A settings sheet, an exercise and an answer. */
struct sheets {
    const uint8_t *settings, *exercise, *answer;
    size_t settings_length, exercise_length, answer_length;
};

static unsigned word_at(const uint8_t *at)
{
    return at[0] + 256u * at[1];
}

static unsigned cell_count(const struct sheets *s)
{
    return word_at(s->exercise + 7);
}

static unsigned lab_of(const struct sheets *s, unsigned cell)
{
    const uint8_t *place = s->answer + 11 + 4 * cell;
    return 32u * place[1] + place[0];
}

/* A LAB's needs, by role and rising signal code, on the board of the settings sheet. */
static struct lab read_lab(const struct sheets *s, unsigned number)
{
    struct lab lab = {0, 0, {{0, 0}}, NULL};
    unsigned i, code;
    int role;
    lab.entries = s->settings[5];
    lab.flags = s->settings + s->settings_length - lab.entries;
    for (role = 0; role < ROLES; role++) {
        uint8_t found[4 + 2 * 1024] = {0};
        for (i = 0; i < cell_count(s); i++) {
            const uint8_t *record = s->exercise + 9 + 24 * i;
            if (record[0] == 2 && lab_of(s, i) == number)
                found[word_at(record + 4 + 2 * role)] = 1;
        }
        for (code = 4; code < sizeof found; code++)
            if (found[code]) {
                expect(lab.needs < MOST_NEEDS, "eight needs at most", (long)number);
                if (lab.needs < MOST_NEEDS) {
                    lab.need[lab.needs].role = (uint8_t)(1 << role);
                    lab.need[lab.needs++].net = (uint16_t)((code - 4) / 2);
                }
            }
    }
    return lab;
}

/* A LAB's eight route bytes: the entry of each need, two places for clk, ena and aclr each, 255 where there is no need. */
static void route_of(const struct lab *lab, const struct entries *way, uint8_t bytes[MOST_NEEDS])
{
    static const uint8_t first[ROLES] = {0, 2, 4, 6, 7};
    int role, i;
    memset(bytes, NURIMKKOT_NO_ENTRY, MOST_NEEDS);
    for (role = 0; role < ROLES; role++) {
        int place = first[role];
        for (i = 0; i < lab->needs; i++)
            if (lab->need[i].role == 1 << role)
                bytes[place++] = way->entry[i];
    }
}

/* What the list, and on 0 the route buffer, have to be where the verdict is 0, or 65 in a LAB. */
static void list_of(const struct sheets *s, uint64_t number, uint64_t refused, uint32_t list[LABS], uint8_t *route)
{
    uint8_t occupied[LABS] = {0};
    unsigned i;
    memset(list, 0, LABS * sizeof *list);
    memset(route, NURIMKKOT_NO_ENTRY, NURIMKKOT_ROUTE_SIZE);
    for (i = 0; i < cell_count(s); i++)
        occupied[lab_of(s, i)] = 1;
    for (i = 0; i < LABS; i++)
        if (occupied[i] && (number == 0 || i <= refused)) {
            struct lab lab = read_lab(s, i);
            struct found found = found_in(&lab);
            expect(found.has_way == (number == 0 || i < refused), "the refused LAB alone has no way", (long)i);
            list[i] = found.tries;
            if (found.has_way)
                route_of(&lab, &found.way, route + 8 * i);
            note(&lab, &found);
        }
}

/* ---- one call */

/* What the last call wrote, the route that a legal answer has to have, and how often each verdict was given. */
static uint64_t numbers[NURIMKKOT_NUMBERS];
static uint32_t tries[LABS];
static uint8_t route[NURIMKKOT_ROUTE_SIZE + 1], routed[NURIMKKOT_ROUTE_SIZE];
static long seen[256];

/* A block of so many numbers that look random, the same each time, or each the inverse of that. */
static uint32_t *numbers_of(size_t count, uint32_t inverse)
{
    uint32_t *block = malloc(count * sizeof *block + 1), number = 0x9e3779b9u;
    size_t i;
    if (block == NULL)
        exit(2);
    for (i = 0; i < count; i++) {
        number = number * 1664525u + 1013904223u;
        block[i] = number ^ inverse;
    }
    return block;
}

/* A call with a block of its own for each sheet. On a refusal the route stays. */
static void call(const struct sheets *s, size_t route_length, uint32_t *list, size_t count)
{
    uint8_t *settings = copy_of(s->settings, s->settings_length), *exercise = copy_of(s->exercise, s->exercise_length);
    uint8_t *answer = copy_of(s->answer, s->answer_length);
    size_t i;
    memset(route, 0xa5, sizeof route);
    nurimkkot_judge(settings, s->settings_length, exercise, s->exercise_length, answer, s->answer_length, route, route_length, list, count,
                    numbers);
    for (i = 0; numbers[NURIMKKOT_NUMBER] != 0 && i < sizeof route; i++)
        expect(route[i] == 0xa5, "the route on a refusal", (long)i);
    give_back(settings, s->settings, s->settings_length);
    give_back(exercise, s->exercise, s->exercise_length);
    give_back(answer, s->answer, s->answer_length);
}

/* On 0 each LAB has its route, and nothing is written behind the last one. */
static void see_route(const char *what)
{
    size_t i;
    if (numbers[NURIMKKOT_NUMBER] != 0)
        return;
    for (i = 0; i < NURIMKKOT_ROUTE_SIZE; i++)
        expect(route[i] == routed[i], what, (long)i);
    expect(route[NURIMKKOT_ROUTE_SIZE] == 0xa5, "a byte behind the route", (long)route[NURIMKKOT_ROUTE_SIZE]);
}

/* A list of exactly so many numbers in a block of its own. Sees that it is what it has to be after this verdict. */
static void judge_alone(const char *what, const struct sheets *s, size_t route_length, size_t count)
{
    uint32_t *wanted = numbers_of(count, 0), *list = copy_of(wanted, count * sizeof *list);
    uint64_t number;
    size_t i;
    call(s, route_length, list, count);
    number = numbers[NURIMKKOT_NUMBER];
    if (number == 0 || number == 65) {
        expect(count == LABS, "verdict 0 or 65 with another list", (long)count);
        if (count == LABS)
            list_of(s, number, numbers[NURIMKKOT_LAB], wanted, routed);
    }
    for (i = 0; i < count; i++)
        expect(list[i] == wanted[i], what, (long)i);
    see_route(what);
    if (count == LABS)
        memcpy(tries, list, sizeof tries);
    free(count ? (uint8_t *)list : (uint8_t *)list - BEHIND);
    free(wanted);
}

/* The same list between guards: written to the same numbers where the verdict is 0 or 65, otherwise as it was. */
static void judge_guarded(const char *what, const struct sheets *s, size_t route_length, size_t count, uint32_t inverse)
{
    size_t all = count + 2 * GUARD, i;
    uint32_t *block = numbers_of(all, inverse), *wanted = numbers_of(all, inverse);
    call(s, route_length, block + GUARD, count);
    if (count == LABS && (numbers[NURIMKKOT_NUMBER] == 0 || numbers[NURIMKKOT_NUMBER] == 65))
        memcpy(wanted + GUARD, tries, sizeof tries);
    for (i = 0; i < all; i++)
        expect(block[i] == wanted[i], i < GUARD || i >= GUARD + count ? "guards around the tries" : what, (long)i - GUARD);
    see_route(what);
    free(wanted);
    free(block);
}

/* Judges with so many bytes of route and so many numbers of tries, and gives the verdict. Fills of which each number is the other one's
 * inverse let none that is written pass unseen, and none that isn't. */
static uint64_t judge_into(const char *what, const struct sheets *s, size_t route_length, size_t count)
{
    uint64_t first[NURIMKKOT_NUMBERS];
    int again;
    judge_alone(what, s, route_length, count);
    memcpy(first, numbers, sizeof first);
    for (again = 0; again < 2; again++) {
        judge_guarded(what, s, route_length, count, again ? 0xffffffffu : 0);
        expect(memcmp(first, numbers, sizeof first) == 0, "the same numbers again", (long)first[NURIMKKOT_NUMBER]);
    }
    seen[numbers[NURIMKKOT_NUMBER] % 256]++;
    return numbers[NURIMKKOT_NUMBER];
}

static uint64_t judge(const char *what, const struct sheets *s)
{
    return judge_into(what, s, NURIMKKOT_ROUTE_SIZE, LABS);
}

/* ---- sheets */

/* The sheets of the case at hand. */
static uint8_t settings[NURIMKKOT_MOST_SETTINGS], exercise[9 + 24 * CELLS], answer[11 + 4 * CELLS];
static struct sheets sheets = {settings, exercise, answer, 0, 0, 0};
static unsigned cells;

/* A board of these entries, on a sheet of this version. */
static void by_entries(int version, const uint8_t *flags, size_t count)
{
    uint8_t *at = put(put(put(settings, 'L' + 256 * 'X' + 65536 * 'T', 3), (uint32_t)version, 2), (uint32_t)count, 1);
    if (version == 2)
        at = put(at, 999, 2);
    if (count > 0)
        memcpy(at, flags, count);
    sheets.settings_length = (size_t)(at - settings) + count;
    expect(settings_number(settings, sheets.settings_length) == 0, "a board of the test itself", (long)count);
}

static void by_board(const uint8_t *board, size_t length)
{
    memcpy(settings, board, length);
    sheets.settings_length = length;
}

/* An exercise of 1,024 nets and no cells yet. */
static void begin(void)
{
    put(put(put(put(exercise, 'L' + 256 * 'X' + 65536 * 'E', 3), 1, 2), 1024, 2), 0, 2);
    put(put(put(put(answer, 'L' + 256 * 'X' + 65536 * 'A', 3), 1, 2), 7, 4), 0, 2);
    sheets.exercise_length = 9;
    sheets.answer_length = 11;
    cells = 0;
}

/* Adds a cell to a LAB, at the next LE that has none of its kind. */
static void add_cell(unsigned lab, uint8_t kind, const uint16_t signals[11])
{
    uint8_t *record = exercise + sheets.exercise_length, *place = answer + sheets.answer_length;
    uint32_t le = 0;
    unsigned i;
    for (i = 0; i < cells; i++)
        le += lab_of(&sheets, i) == lab && exercise[9 + 24 * i] == kind;
    record = put(put(record, kind, 1), 0, 1);
    for (i = 0; i < 11; i++)
        record = put(record, signals[i], 2);
    put(put(put(put(place, lab % 32, 1), lab / 32, 1), le, 1), 0, 1);
    cells++;
    put(exercise + 7, cells, 2);
    put(answer + 9, cells, 2);
    sheets.exercise_length += 24;
    sheets.answer_length += 4;
}

/* Adds a register with these control signals and a net of its own at regout. */
static void add_register(unsigned lab, uint16_t clk, uint16_t ena, uint16_t aclr, uint16_t sclr, uint16_t sload)
{
    uint16_t signals[11] = {0};
    signals[1] = clk;
    signals[2] = ena;
    signals[3] = aclr;
    signals[4] = sclr;
    signals[5] = sload;
    signals[6] = sload ? 2 : 0;
    signals[7] = (uint16_t)(4 + 2 * (512 + cells));
    add_cell(lab, 2, signals);
}

/* Fills a LAB with two registers that have these signals. A port without one has GND or VCC, which need no entry, or is open. */
static void add_signals(unsigned lab, struct signals signals)
{
    const uint16_t *code = signals.code;
    int i;
    for (i = 0; i < 2; i++)
        add_register(lab, code[i] ? code[i] : 1, code[2 + i] ? code[2 + i] : 2, code[4 + i] ? code[4 + i] : 1, i ? 0 : code[6], i ? 0 : code[7]);
}

/* How many needs a LAB has in each role: clk, ena, aclr, sclr and sload. */
struct needs {
    uint8_t of[ROLES];
};

/* Fills a LAB with so many needs, all of different nets. */
static void add_needs(unsigned lab, struct needs needs)
{
    static const uint8_t role[MOST_NEEDS] = {0, 0, 1, 1, 2, 2, 3, 4};
    struct signals signals;
    int i;
    for (i = 0; i < MOST_NEEDS; i++)
        signals.code[i] = (uint16_t)(needs.of[role[i]] > (i < 6 ? i % 2 : 0) ? 4 + 2 * i : 0);
    add_signals(lab, signals);
}

/* A combinational cell without a connection. */
static void add_open_cell(unsigned lab)
{
    static const uint16_t open[11];
    add_cell(lab, 1, open);
}

/* ---- cases */

static const struct needs NONE = {{0, 0, 0, 0, 0}}, P9 = {{1, 1, 1, 0, 0}}, P10 = {{2, 0, 2, 0, 0}}, P11 = {{2, 2, 2, 0, 0}},
                          P12 = {{2, 0, 2, 1, 1}}, EIGHT = {{2, 2, 2, 1, 1}};

/* One LAB on the board: the tries are known, all others are 0. */
static void one_lab(const char *what, unsigned lab, struct needs needs, uint64_t number, uint32_t known)
{
    unsigned i;
    begin();
    add_needs(lab, needs);
    expect(judge(what, &sheets) == number, what, (long)numbers[NURIMKKOT_NUMBER]);
    expect(numbers[NURIMKKOT_LAB] == (number == 0 ? NURIMKKOT_NONE : lab), what, (long)numbers[NURIMKKOT_LAB]);
    for (i = 0; i < LABS; i++)
        expect(tries[i] == (i == lab ? known : 0), what, (long)tries[i]);
}

static void house(void)
{
    static const struct { const char *what; struct needs needs; uint8_t number; uint32_t known; } cases[] = {
        {"no needs", {{0, 0, 0, 0, 0}}, 0, 0},
        {"one clk", {{1, 0, 0, 0, 0}}, 0, 1},
        {"one ena: two entries before it serve others", {{0, 1, 0, 0, 0}}, 0, 1},
        {"one sload", {{0, 0, 0, 0, 1}}, 0, 1},
        {"two clk", {{2, 0, 0, 0, 0}}, 0, 2},
        {"P9: entries 0, 2, 1", {{1, 1, 1, 0, 0}}, 0, 3},
        /* 0; 0 1; 0 1 4, and no second aclr; 0 2; 0 2 1; 0 2 1 4. */
        {"P10: entry 1 is given back", {{2, 0, 2, 0, 0}}, 0, 6},
        /* 3 for one clk, 6 for two; then with 0 and 1 taken, in either order, 2 each for ena, ena and aclr; with others 1 for ena. */
        {"P11: no way", {{2, 2, 2, 0, 0}}, 65, 3 + 6 + 2 * (2 + 2 + 2) + 4 * 1},
        /* 0; 0 1; 0 1 4; 0 2; and so on to 0 2 1 4 5 3. */
        {"P12: entry 1 is given back", {{2, 0, 2, 1, 1}}, 0, 8},
    };
    static const unsigned labs[] = {0, 1, 34, 992, 1023};
    size_t i, k;
    by_board(HOUSE, sizeof HOUSE);
    for (i = 0; i < sizeof cases / sizeof cases[0]; i++)
        for (k = 0; k < sizeof labs / sizeof labs[0]; k++)
            one_lab(cases[i].what, labs[k], cases[i].needs, cases[i].number, cases[i].known);
}

static void other_boards(void)
{
    static const struct needs clk_ena = {{1, 1, 0, 0, 0}};
    uint8_t flags[NURIMKKOT_MOST_ENTRIES] = {NURIMKKOT_CLK | NURIMKKOT_ENA, NURIMKKOT_CLK};
    by_entries(1, flags, 2);
    one_lab("0; 1; 1 0: the lower entry is given back", 34, clk_ena, 0, 3);
    flags[1] = NURIMKKOT_ENA;
    by_entries(2, flags, 2);
    one_lab("0; 0 1", 34, clk_ena, 0, 2);
    by_entries(1, flags, 1);
    one_lab("one entry for needs of two nets", 34, clk_ena, 65, 1);
    by_entries(1, flags, 0);
    one_lab("no entries", 34, clk_ena, 65, 0);
    one_lab("no entries and no needs", 34, NONE, 0, 0);
    by_board(SECOND, sizeof SECOND);
    /* 3 for one clk, 6 for two, 18 and 36 with one and two aclr, 12 with sclr, and then entry 1 is never free for sload. */
    one_lab("P12 on the second board: no way", 34, P12, 65, 3 + 6 + 18 + 36 + 12);
    memset(flags, 31, sizeof flags);
    by_entries(1, flags, 8);
    one_lab("eight needs, each entry serves all", 1023, EIGHT, 0, 8);
    expect(list_count == LISTS, "how many lists there are for eight needs of different nets", (long)list_count);
    memset(flags, 31 - NURIMKKOT_SLOAD, sizeof flags);
    by_entries(2, flags, 8);
    /* 8 + 8 * 7 + .. + 8 * 7 * 6 * 5 * 4 * 3 * 2 */
    one_lab("seven needs that each entry serves, and one that none serves", 1023, EIGHT, 65, 69280);
    /* Entry 0 has to stay for the last need, 1 to 7 in turn for the others: all that begins with 0, with 1 0, with 1 2 0 and so on. */
    flags[0] = 31;
    by_entries(1, flags, 8);
    one_lab("eight needs, the last one served by entry 0 alone", 0, EIGHT, 0, 8660 + 1237 + 206 + 41 + 10 + 3 + 1 + 8);
}

/* The LABs with several needs of one net: the route and the tries are known. */
static void one_net(void)
{
    static const unsigned labs[] = {0, 34, 1023};
    size_t i, k;
    for (i = 0; i < SHARED_COUNT; i++)
        for (k = 0; k < sizeof labs / sizeof labs[0]; k++) {
            const struct shared *s = &SHARED[i];
            unsigned lab = labs[k];
            begin();
            add_signals(lab, s->signals);
            by_entries(1 + (int)(k % 2), s->flags, s->entries);
            expect(judge(s->what, &sheets) == s->number, s->what, (long)numbers[NURIMKKOT_NUMBER]);
            expect(tries[lab] == s->tries, s->what, (long)tries[lab]);
            expect(s->number != 0 || memcmp(route + 8 * lab, s->route, 8) == 0, s->what, (long)lab);
        }
}

/* One call alone on a LAB whose lists are too many to look at: the tries are known, and the route where there is one. */
static void long_search(const char *what, struct signals signals, uint64_t number, const uint8_t *bytes, uint32_t known)
{
    unsigned i;
    begin();
    add_signals(500, signals);
    call(&sheets, NURIMKKOT_ROUTE_SIZE, tries, LABS);
    expect(numbers[NURIMKKOT_NUMBER] == number, what, (long)numbers[NURIMKKOT_NUMBER]);
    for (i = 0; i < LABS; i++)
        expect(tries[i] == (i == 500 ? known : 0), what, (long)tries[i]);
    expect(number != 0 || memcmp(route + 8 * 500, bytes, 8) == 0, what, 500);
}

/* Seven needs of one net may have any of eight entries. */
static void long_searches(void)
{
    static const uint8_t bytes[8] = {1, 1, 1, 1, 1, 1, 1, 0};
    struct signals signals = {{A, NOT_A, A, NOT_A, A, NOT_A, A, A}};
    uint8_t flags[NURIMKKOT_MOST_ENTRIES];
    memset(flags, 31 - NURIMKKOT_SLOAD, sizeof flags);
    by_entries(1, flags, 8);
    /* 8 + 8 * 8 + .. to the seventh power. */
    long_search("eight needs of one net, and no entry for the last", signals, 65, NULL, 2396744);
    /* Entry 0 has to stay for B: all that begins with 0, with 1 0, with 1 1 0 and so on, and then the eight parts of the way. */
    signals.code[7] = B;
    flags[0] = 31;
    by_entries(2, flags, 8);
    long_search("seven needs of A, and B served by entry 0 alone", signals, 0, bytes, 299593 + 37449 + 4681 + 585 + 73 + 9 + 1 + 8);
}

/* The worked listing, with clk and aclr in LAB 34; then a net, its inverse and the net in another role, which are three needs with entries 0, 0
 * and 1, and the same on more registers, which are no more. */
static void listing(void)
{
    static const uint8_t bytes[8] = {0, 0, 255, 255, 1, 255, 255, 255};
    struct sheets s = {HOUSE, EXERCISE, ANSWER, sizeof HOUSE, sizeof EXERCISE, sizeof ANSWER};
    expect(judge("the worked listing", &s) == 0 && tries[34] == 2, "the worked listing", (long)tries[34]);
    by_board(HOUSE, sizeof HOUSE);
    begin();
    add_register(34, 5, 0, 4, 0, 0);
    add_register(34, 4, 0, 4, 0, 0);
    expect(judge("a net and its inverse", &sheets) == 0 && tries[34] == 3, "a net and its inverse", (long)tries[34]);
    expect(memcmp(route + 8 * 34, bytes, sizeof bytes) == 0, "the route of a net and its inverse", 34);
    add_register(34, 5, 0, 0, 0, 0);
    add_register(34, 4, 0, 4, 0, 0);
    expect(judge("the same needs again", &sheets) == 0 && tries[34] == 3, "the same needs again", (long)tries[34]);
    expect(memcmp(route + 8 * 34, bytes, sizeof bytes) == 0, "the route of the same needs again", 34);
}

/* LABs with and without needs below and above LAB 500, which is filled with these needs; the highest LAB comes first on the sheets. */
static void around(struct needs needs)
{
    begin();
    add_needs(1023, P9);
    add_needs(501, P10);
    add_needs(500, needs);
    add_needs(499, P12);
    add_needs(34, P9);
    add_open_cell(33);
    add_needs(3, NONE);
    add_needs(0, P10);
}

static void below_and_above(void)
{
    static const struct { unsigned lab; uint32_t known; } legal[] = {{0, 6}, {34, 3}, {499, 8}, {500, 8}, {501, 6}, {1023, 3}},
                                                          refused[] = {{0, 6}, {34, 3}, {499, 8}, {500, 25}};
    uint64_t sum = 0;
    size_t i;
    by_board(HOUSE, sizeof HOUSE);
    around(P12);
    expect(judge("a way in every LAB", &sheets) == 0, "a way in every LAB", (long)numbers[NURIMKKOT_NUMBER]);
    for (i = 0; i < LABS; i++)
        sum += tries[i];
    expect(sum == 34, "the sum of a legal answer", (long)sum);
    for (i = 0; i < sizeof legal / sizeof legal[0]; i++)
        expect(tries[legal[i].lab] == legal[i].known, "tries of a legal answer", (long)legal[i].lab);
    around(P11);
    expect(judge("no way in LAB 500", &sheets) == 65 && numbers[NURIMKKOT_LAB] == 500, "no way in LAB 500", (long)numbers[NURIMKKOT_LAB]);
    for (i = sum = 0; i < LABS; i++)
        sum += tries[i];
    expect(sum == 42, "the sum up to LAB 500", (long)sum);
    for (i = 0; i < sizeof refused / sizeof refused[0]; i++)
        expect(tries[refused[i].lab] == refused[i].known, "tries up to LAB 500", (long)refused[i].lab);
}

/* Breaks one of rules 60 to 64 in a LAB. */
static void add_broken(unsigned lab, int rule)
{
    uint16_t signals[11] = {0}, i, j;
    for (i = 0; i < 3 && rule < 64; i++) {
        uint16_t other = (uint16_t)(4 + 2 * i);
        add_register(lab, rule == 60 ? other : 4, rule == 61 ? other : 0, rule == 62 ? other : 0, rule == 63 ? other : 0, 0);
    }
    for (i = 0; i < 10 && rule == 64; i++) {
        for (j = 0; j < 4; j++)
            signals[j] = (uint16_t)(4 + 2 * (4 * i + j));
        add_cell(lab, 1, signals);
    }
}

/* 60 to 64 in a LAB above some that were searched, and below one that has no way: the list stays. Where a lower LAB has no way, that is 65. */
static void broken_rules(void)
{
    int rule;
    by_board(HOUSE, sizeof HOUSE);
    for (rule = 60; rule <= 64; rule++) {
        around(P12);
        add_broken(700, rule);
        add_needs(701, P11);
        expect(judge("a broken rule above LABs that were searched", &sheets) == (uint64_t)rule && numbers[NURIMKKOT_LAB] == 700,
               "a broken rule above LABs that were searched", (long)numbers[NURIMKKOT_NUMBER]);
        around(P11);
        add_broken(700, rule);
        expect(judge("no way below a broken rule", &sheets) == 65 && tries[500] == 25 && tries[700] == 0, "no way below a broken rule", rule);
    }
}

/* 1, then 3, before everything else: beside good sheets and sheets that are refused, with lists of other lengths. 256 numbers have 1,024
 * bytes, and the low 16 bits of 66,560 are 1,024. */
static void other_lengths(void)
{
    static const size_t counts[] = {0, 1, 2, 8, 256, 1023, 1025, 2048, 4096, 8192, 66560}, routes[] = {0, 1, 8191, 8193};
    size_t i, k;
    int bad;
    by_board(HOUSE, sizeof HOUSE);
    for (bad = 0; bad < 6; bad++) {
        struct sheets s;
        uint64_t number;
        around(bad == 5 ? P11 : P12);
        s = sheets;
        s.settings_length -= bad == 1 || bad == 4 ? s.settings_length : 0;
        s.exercise_length -= bad == 2 || bad == 4 ? s.exercise_length : 0;
        s.answer_length -= bad == 3 || bad == 4 ? s.answer_length : 0;
        number = judge("by sheets", &s);
        expect(number == (bad == 0 ? 0u : bad == 5 ? 65u : bad == 2 ? 10u : bad == 3 ? 20u : 70u), "by sheets", (long)number);
        for (i = 0; i < sizeof counts / sizeof counts[0]; i++) {
            expect(judge_into("a list of another length", &s, NURIMKKOT_ROUTE_SIZE, counts[i]) == 3, "refusal 3", (long)counts[i]);
            expect(numbers[NURIMKKOT_CELL] == NURIMKKOT_NONE && numbers[NURIMKKOT_LAB] == NURIMKKOT_NONE, "cell and LAB of 3", bad);
            expect(numbers[NURIMKKOT_APPRENTICE] == 0, "apprentice of 3", bad);
            expect(numbers[NURIMKKOT_SHEET] == 1 && numbers[NURIMKKOT_START] == s.answer_length && numbers[NURIMKKOT_LENGTH] == 0,
                   "culprit of 3", bad);
            for (k = 0; k < sizeof routes / sizeof routes[0]; k++)
                expect(judge_into("route and list of another length", &s, routes[k], counts[i]) == 1, "1 before 3", (long)counts[i]);
        }
        for (k = 0; k < sizeof routes / sizeof routes[0]; k++)
            expect(judge_into("a route of another length", &s, routes[k], LABS) == 1, "1 beside a right list", (long)routes[k]);
    }
}

/* A settings sheet that is none leaves the list as it is. */
static void refused_boards(void)
{
    struct sheets s;
    size_t i;
    around(P12);
    s = sheets;
    for (i = 0; i < BOARD_COUNT; i++) {
        uint64_t number;
        s.settings = (const uint8_t *)BOARDS[i].bytes;
        s.settings_length = BOARDS[i].length;
        number = judge(BOARDS[i].what, &s);
        expect(BOARDS[i].number != 0 ? number == BOARDS[i].number : number == 0 || number == 65, BOARDS[i].what, (long)number);
    }
}

static struct needs any_needs(void)
{
    struct needs needs;
    int role;
    for (role = 0; role < ROLES; role++)
        needs.of[role] = (uint8_t)chance(role < 3 ? 3 : 2);
    return needs;
}

/* Signals of one to eight nets, in either polarity: often several of one net. */
static struct signals any_signals(void)
{
    struct signals signals;
    uint32_t nets = chance(5) ? 1 + chance(3) : MOST_NEEDS, base = chance(500), i;
    for (i = 0; i < MOST_NEEDS; i++)
        signals.code[i] = (uint16_t)(chance(5) ? 4 + 2 * (base + chance(nets)) + chance(2) : 0);
    return signals;
}

/* Takes a role, often a late one, from all entries but one, often an early one, so that its needs find none, or find it only where others have
 * given it back. */
static void leave_one(uint8_t flags[NURIMKKOT_MOST_ENTRIES])
{
    size_t left = chance(chance(2) ? 2 : NURIMKKOT_MOST_ENTRIES), i;
    uint8_t role = (uint8_t)(1 << (chance(2) ? ROLES - 1 - chance(2) : chance(ROLES)));
    for (i = 0; i < NURIMKKOT_MOST_ENTRIES; i++)
        if (i != left)
            flags[i] &= (uint8_t)~role;
}

/* LABs and boards that look random. Entries behind the last one that serve nothing change no number, and neither does the sheet's version. */
static void by_chance(int times)
{
    for (; times > 0; times--) {
        uint8_t flags[NURIMKKOT_MOST_ENTRIES] = {0};
        size_t count = chance(4) ? 5 + chance(4) : chance(9), i;
        uint32_t list[LABS], often = 1 + chance(4);
        unsigned lab = chance(100);
        uint64_t number;
        for (i = 0; i < 5 * count; i++)
            flags[i / 5] |= (uint8_t)((chance(4) < often) << i % 5);
        if (chance(2))
            leave_one(flags);
        begin();
        for (i = 1 + chance(6); i > 0 && lab < LABS; i--) {
            if (chance(4) == 0)
                add_needs(lab, any_needs());
            else
                add_signals(lab, any_signals());
            lab += 1 + chance(250);
        }
        by_entries(1, flags, count);
        number = judge("by chance", &sheets);
        memcpy(list, tries, sizeof list);
        by_entries(2, flags, NURIMKKOT_MOST_ENTRIES);
        expect(judge("by chance, with eight entries", &sheets) == number, "the verdict with eight entries", (long)count);
        expect(memcmp(list, tries, sizeof list) == 0, "the same tries with eight entries", (long)count);
    }
}

/* Every verdict was given. */
static void every_number(void)
{
    static const uint8_t ends[][2] = {{0, 1}, {3, 3}, {10, 16}, {20, 26}, {30, 35}, {40, 44}, {50, 51}, {60, 65}, {70, 75}};
    unsigned number;
    size_t i;
    for (i = 0; i < sizeof ends / sizeof ends[0]; i++)
        for (number = ends[i][0]; number <= ends[i][1]; number++)
            expect(seen[number] > 0, "every verdict", (long)number);
}

/* LABs of each sort were looked at. */
static void every_sort(void)
{
    int i;
    for (i = 0; i < SORTS; i++)
        expect(sorts[i] >= 30, SORT_NAMES[i], sorts[i]);
}

int main(int argc, char **argv)
{
    static uint8_t file[3][EXERCISE_ROOM];
    struct sheets s = {file[0], file[1], file[2], 0, 0, 0};
    int i;
    listing();
    house();
    other_boards();
    one_net();
    long_searches();
    below_and_above();
    broken_rules();
    other_lengths();
    refused_boards();
    by_chance(120);
    for (i = 1; i + 2 < argc; i += 3) {
        s.settings_length = read_file(argv[i], 0, file[0], SETTINGS_ROOM);
        s.exercise_length = read_file(argv[i + 1], 1, file[1], EXERCISE_ROOM);
        s.answer_length = read_file(argv[i + 2], 1, file[2], ANSWER_ROOM);
        judge(argv[i + 2], &s);
    }
    every_number();
    every_sort();
    if (failures == 0)
        printf("C: tries as defined, %ld times with 0 and %ld with 65; the list untouched by every other verdict\n", seen[0], seen[65]);
    return failures != 0;
}
