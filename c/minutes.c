/* Counts the minutes on a tablet's log and prints a line for each apprentice, then one for each entry that covers no minute; where the log is
 * refused, prints the number.
 *
 *     cc -o minutes c/minutes.c crates/c_api/out/libc_api.a && ./minutes tablet.lxl */
#include "nurimkkot.h"
#include "sheet_files.h"

int main(int argc, char **argv)
{
    static uint8_t log[LOG_ROOM];
    struct nurimkkot_credit rows[NURIMKKOT_CREDIT_ROWS];
    uint16_t entries[NURIMKKOT_LOG_ENTRIES];
    size_t length, rows_filled, entries_filled, i;
    uint8_t number;

    if (argc != 2) {
        fprintf(stderr, "usage: minutes LOG\n");
        return 2;
    }
    length = read_file(argv[1], 1, log, sizeof log);
    number = nurimkkot_minutes(log, length, rows, NURIMKKOT_CREDIT_ROWS, entries, NURIMKKOT_LOG_ENTRIES, &rows_filled, &entries_filled);
    if (number != 0)
        printf("number %d\n", number);
    for (i = 0; i < rows_filled; i++)
        printf("apprentice %lu minutes %u\n", (unsigned long)rows[i].apprentice, (unsigned)rows[i].minutes);
    for (i = 0; i < entries_filled; i++)
        printf("entry %u covers none\n", (unsigned)entries[i]);
    return 0;
}
