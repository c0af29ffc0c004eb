/* What tries.c and forms.c share: LABs with several needs of one net, on boards of their own, worked by hand. */
#ifndef NURIMKKOT_TESTS_SHARING_H
#define NURIMKKOT_TESTS_SHARING_H

#include "check.h"

/* The control signals of a LAB: two clk, two ena, two aclr, sclr and sload; 0 where there is none. */
struct signals {
    uint16_t code[8];
};

/* A LAB on a board of so many entries with these flags: its verdict, its route bytes and its tries. */
struct shared {
    const char *what;
    size_t entries;
    uint8_t flags[NURIMKKOT_MOST_ENTRIES];
    struct signals signals;
    uint8_t number, route[8];
    uint32_t tries;
};

/* Five nets and their inverses. */
enum { A = 4, NOT_A, B, NOT_B, C, NOT_C, D, NOT_D, E, NOT_E };

#define SHARED_COUNT (sizeof SHARED / sizeof SHARED[0])
#define SIX_OF_HOUSE 6, {0x01, 0x05, 0x03, 0x12, 0x0c, 0x18}
#define CLK_ACLR (NURIMKKOT_CLK | NURIMKKOT_ACLR)
#define NONE_SERVED {255, 255, 255, 255, 255, 255, 255, 255}

static const struct shared SHARED[] = {
    {"A and its inverse as clk", SIX_OF_HOUSE, {{A, NOT_A}}, 0, {0, 0, 255, 255, 255, 255, 255, 255}, 2},
    {"A as clk and aclr: both could have 1, and clk has 0", SIX_OF_HOUSE, {{A, 0, 0, 0, A}}, 0, {0, 255, 255, 255, 1, 255, 255, 255}, 2},
    {"A as clk and its inverse as aclr", SIX_OF_HOUSE, {{A, 0, 0, 0, NOT_A}}, 0, {0, 255, 255, 255, 1, 255, 255, 255}, 2},
    {"one clk net, two ena, two aclr: a way by sharing alone", SIX_OF_HOUSE, {{A, NOT_A, B, C, D, E}}, 0, {0, 0, 2, 3, 1, 4, 255, 255}, 6},
    {"two clk, two ena, one aclr net", SIX_OF_HOUSE, {{A, B, C, D, E, NOT_E}}, 0, {0, 1, 2, 3, 4, 4, 255, 255}, 6},
    /* 0; 0 1; then 0 1 2 with 2 or 3, and 0 1 3 with 2 or 3, each with 4 and no second aclr; 0 2; 0 2 3; 0 2 3 3; 0 2 3 3 1; 0 2 3 3 1 4. */
    {"two clk, one ena net, two aclr: entry 1 is given back", SIX_OF_HOUSE, {{A, B, C, NOT_C, D, E}}, 0, {0, 2, 3, 3, 1, 4, 255, 255}, 17},
    /* 0; 0 1; 0 1 2; 0 1 2 3; 0 1 2 3 4; 0 1 3; 0 1 3 2; 0 1 3 2 4; 0 2; 0 2 3; 1; 1 0; and so on to 1 0 2 3 1 4. */
    {"clk and aclr of A have entry 1, once clk gives 0 back", SIX_OF_HOUSE, {{A, B, C, D, A, E}}, 0, {1, 0, 2, 3, 1, 4, 255, 255}, 16},
    {"eight needs of one net on six entries", SIX_OF_HOUSE, {{A, NOT_A, A, NOT_A, A, NOT_A, A, A}}, 0, {0, 0, 2, 2, 1, 1, 4, 3}, 8},
    {"eight needs of five nets on six entries", SIX_OF_HOUSE, {{A, NOT_A, B, NOT_B, C, NOT_C, D, E}}, 0, {0, 0, 2, 2, 1, 1, 4, 3}, 8},
    {"one entry for clk, two clk", 1, {NURIMKKOT_CLK}, {{A, B}}, 65, NONE_SERVED, 1},
    {"one entry for clk, two clk inverted", 1, {NURIMKKOT_CLK}, {{NOT_A, NOT_B}}, 65, NONE_SERVED, 1},
    {"one entry for clk, A and its inverse", 1, {NURIMKKOT_CLK}, {{A, NOT_A}}, 0, {0, 0, 255, 255, 255, 255, 255, 255}, 2},
    {"one entry for clk and aclr, one net", 1, {CLK_ACLR}, {{A, 0, 0, 0, A}}, 0, {0, 255, 255, 255, 0, 255, 255, 255}, 2},
    {"one entry for clk and aclr, two nets", 1, {CLK_ACLR}, {{A, 0, 0, 0, B}}, 65, NONE_SERVED, 1},
    {"one entry that A has twice is not B's", 1, {CLK_ACLR}, {{A, NOT_A, 0, 0, B}}, 65, NONE_SERVED, 2},
    {"A as clk and aclr: aclr could have clk's entry, and has a smaller one", 2, {NURIMKKOT_ACLR, CLK_ACLR}, {{A, 0, 0, 0, A}}, 0,
     {1, 255, 255, 255, 0, 255, 255, 255}, 2},
    {"two entries, each with clk and aclr of one net", 2, {CLK_ACLR, CLK_ACLR}, {{A, B, 0, 0, A, B}}, 0, {0, 1, 255, 255, 0, 1, 255, 255}, 4},
    {"clk and sload of A, another net between them", 2, {NURIMKKOT_CLK | NURIMKKOT_ENA | NURIMKKOT_SLOAD, NURIMKKOT_ENA},
     {{A, 0, B, 0, 0, 0, 0, A}}, 0, {0, 255, 1, 255, 255, 255, 255, 0}, 3},
    {"sclr and sload of one net", 2, {NURIMKKOT_CLK, NURIMKKOT_SCLR | NURIMKKOT_SLOAD}, {{A, 0, 0, 0, 0, 0, B, NOT_B}}, 0,
     {0, 255, 255, 255, 255, 255, 1, 1}, 3},
    {"three needs of one net on one entry", 1, {NURIMKKOT_CLK | NURIMKKOT_ENA | NURIMKKOT_ACLR}, {{A, 0, A, 0, A}}, 0,
     {0, 255, 0, 255, 0, 255, 255, 255}, 3},
    {"eight needs of one net on one entry", 1, {31}, {{A, NOT_A, A, NOT_A, A, NOT_A, A, NOT_A}}, 0, {0, 0, 0, 0, 0, 0, 0, 0}, 8},
    {"seven needs of A on one entry, and one of B", 1, {31}, {{A, NOT_A, A, NOT_A, A, NOT_A, A, B}}, 65, NONE_SERVED, 7},
    {"eight needs of one net, each entry serves all", 8, {31, 31, 31, 31, 31, 31, 31, 31}, {{A, NOT_A, A, NOT_A, A, NOT_A, A, A}}, 0,
     {0, 0, 0, 0, 0, 0, 0, 0}, 8},
};

#endif
