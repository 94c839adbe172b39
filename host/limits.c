/* Everything that a host can get wrong: numbers at their extremes, lengths of 0, one too few and one too many.
   What the desk program can be asked too goes to the two files; what its lines cannot say, wrong lengths of lent
   memory, is judged here: the number of the refusal, and that nothing was changed.
   limits LIBRARY LINES ANSWERS */
#include "told.h"

static const int64_t far[] = {INT64_MIN, INT64_MIN + 1, -4294967297, -4294967296, -2147483649, -2147483648, -2500001,
                              -2500000,  -65536,        -256,        -33,         -32,         -1,          0,
                              1,         2,             6,           7,           30,          31,          32,
                              33,        63,            64,          65,          255,         256,         257,
                              65535,     65536,         65537,       2499999,     2500000,     2500001,     4294967295,
                              4294967296, 4294967297,   4294967298,  INT64_MAX - 1, INT64_MAX};
#define FAR (sizeof far / sizeof far[0])

static void wants(uint32_t r, uint32_t wanted, const char *what) {
    if (r != wanted) {
        printf("%s: %u, not %u\n", what, r, wanted);
        exit(1);
    }
    if (r && changed()) end("a refused call changed something");
}

/* ---- lengths of lent memory: each refused call is made with all else as it should be */

static const size_t wrong[] = {0, 1, DESK_NODES - 1, DESK_NODES + 1};

static void slices(uint32_t card, uint32_t transistor) {
    static int64_t more_volts[DESK_NODES + 1], more_totals[DESK_NODES + 1];
    static const int64_t nodes[11] = {3, 1, 1, 4, 4, 4, 0, 3, 1, 4, 4};
    uint32_t issue = 5, who = 6, branch = 7;
    int64_t v = 8, t = 9;
    memcpy(more_volts, volts, sizeof volts);
    memcpy(more_totals, totals, sizeof totals);
    for (size_t i = 0; i < sizeof wrong / sizeof wrong[0]; i++)
        for (int which = 0; which < 2; which++) {
            size_t a = which ? DESK_NODES : wrong[i], b = which ? wrong[i] : DESK_NODES;
            const int64_t pairs[2] = {1, 1350000};
            keep();
            wants(desk_fresh(&board, more_volts, a, more_totals, b), 13, "fresh");
            wants(desk_place(&board, more_volts, a, more_totals, b, card, nodes, 7, &issue, &who, &branch), 13,
                  "place");
            wants(desk_move(&board, more_volts, a, more_totals, b, 1, 1350000, &who, &branch), 13, "move");
            wants(desk_move_all(&board, more_volts, a, more_totals, b, pairs, 2, &who, &branch), 13, "moves");
            wants(desk_move_in_place(&board, more_volts, a, more_totals, b, pairs, 2, &who, &branch), 13, "in place");
            wants(desk_lift(&board, more_volts, a, more_totals, b, transistor), 13, "lift");
            wants(desk_read_node(&board, more_volts, a, more_totals, b, 1, &v, &t), 13, "node");
        }
    for (size_t n = 0; n <= 11; n++) {
        keep();
        if (n != 7 && n != 11)
            wants(desk_place(&board, volts, DESK_NODES, totals, DESK_NODES, card, nodes, n, &issue, &who, &branch), 1,
                  "place");
    }
    if (memcmp(more_volts, volts, sizeof volts) || memcmp(more_totals, totals, sizeof totals))
        end("a slice was changed");
    if (issue != 5 || who != 6 || branch != 7 || v != 8 || t != 9) end("a place was changed");
}

/* lists of pairs of every length up to one pair too many; an odd one is refused too */
static void lists(void) {
    static int64_t pairs[67];
    uint32_t who = 6, branch = 7;
    for (size_t i = 0; i < 67; i++) pairs[i] = i % 2 ? 0 : 20;
    for (size_t n = 0; n <= 67; n++) {
        keep();
        if (n % 2) {
            wants(desk_move_all(&board, volts, DESK_NODES, totals, DESK_NODES, pairs, n, &who, &branch), 1, "moves");
            wants(desk_move_in_place(&board, volts, DESK_NODES, totals, DESK_NODES, pairs, n, &who, &branch), 1,
                  "in place");
        } else {
            tell_moves(pairs, n);
        }
    }
}

/* buffers one too short, just long enough and longer; what is beyond what was told stays */
static void buffers(uint32_t transistor, int64_t node, uint32_t names_it) {
    for (size_t n = 0; n <= DESK_BRANCHES + 1; n++) {
        int64_t ticks[DESK_BRANCHES + 1];
        for (int i = 0; i <= DESK_BRANCHES; i++) ticks[i] = -7;
        keep();
        wants(desk_read_currents(&board, transistor, ticks, n), n < DESK_BRANCHES ? 5 : 0, "currents");
        for (size_t i = n < DESK_BRANCHES ? 0 : DESK_BRANCHES; i <= DESK_BRANCHES; i++)
            if (ticks[i] != -7) end("a buffer was changed");
    }
    for (size_t n = 0; n <= DESK_TRANSISTORS; n++) {
        uint32_t list[DESK_TRANSISTORS], count = 99;
        for (int i = 0; i < DESK_TRANSISTORS; i++) list[i] = 4000000000u;
        keep();
        wants(desk_list_node(&board, node, list, n, &count), n < names_it ? 5 : 0, "who");
        for (size_t i = n < names_it ? 0 : names_it; i < DESK_TRANSISTORS; i++)
            if (list[i] != 4000000000u) end("a list was changed");
        if (count != (n < names_it ? 99 : names_it)) end("a count is another");
    }
}

/* the library cut short or made longer, and buffers for its names and words that are too short by one */
static void libraries(void) {
    static uint8_t names[4096], longer[sizeof library + 1];
    static uint64_t words[6144];
    uint32_t cards = 9, version = 9;
    size_t at = 9, size = 9;
    static const uint8_t name[] = "npn4";
    memcpy(longer, library, library_n);
    for (size_t n = 0; n <= library_n + 1; n++) {
        if (n == library_n) continue;
        wants(desk_read_library(longer, n, names, sizeof names, words, 6144, &cards, &version), 1, "library");
        wants(desk_find(longer, n, name, 4, &at, &size), 1, "find");
    }
    if (cards != 9 || version != 9 || at != 9 || size != 9) end("a place was changed");
    wants(desk_read_library(library, library_n, names, sizeof names, words, 6144, &cards, &version), 0, "library");
    size_t bytes = 16 * cards, numbers = (version == 1 ? 16 : 24) * cards;
    wants(desk_read_library(library, library_n, names, bytes, words, numbers, &cards, &version), 0, "library");
    wants(desk_read_library(library, library_n, names, bytes - 1, words, numbers, &cards, &version), 5, "library");
    wants(desk_read_library(library, library_n, names, bytes, words, numbers - 1, &cards, &version), 5, "library");
    wants(desk_read_library(library, library_n, names, 0, words, numbers, &cards, &version), 5, "library");
    wants(desk_read_library(library, library_n, names, bytes, words, 0, &cards, &version), 5, "library");
}

int main(int count, char **given) {
    static const int64_t pair1[7] = {3, 1, 1, 4, 4, 4, 0}, pair2[7] = {3, 2, 2, 5, 5, 5, 0};
    static const int64_t all[11] = {3, 1, 1, 4, 4, 4, 0, 3, 1, 4, 4};
    static uint8_t name[17], record[194];
    if (count != 4) end("limits LIBRARY LINES ANSWERS");
    open_files(given[2], given[3]);
    memset(&board, 0, sizeof board);
    tell_fresh();
    tell_library(given[1]);

    /* names of 1 to 17 bytes, and bytes of every value but those that part words; an empty one the desk cannot say */
    for (size_t n = 1; n <= 17; n++) {
        memset(name, 'q', n);
        tell_find(name, n);
        tell_lookup(name, n);
    }
    for (int b = 1; b < 256; b++)
        if (b != ' ' && b != '\n') {
            name[0] = (uint8_t)b;
            tell_find(name, 3);
            tell_lookup(name, 3);
        }
    uint32_t issue = 5;
    size_t at = 9, size = 9;
    keep();
    wants(desk_find(library, library_n, name, 0, &at, &size), 2, "find");
    wants(desk_look_up(&board, name, 0, &issue), 2, "lookup");
    wants(desk_load(&board, name, 0, record, 128, &issue), 2, "load");
    if (issue != 5 || at != 9 || size != 9) end("a place was changed");

    /* records of every length */
    if (desk_find(library, library_n, (const uint8_t *)"npn4", 4, &at, &size)) end("no npn4");
    memcpy(record, library + at, size);
    for (size_t n = 0; n <= 194; n++)
        if (n != 128) tell_record("r", record, n);
    tell_record("seventeen_letters", record, 128);

    uint32_t card = tell_record("r", record, 128), other = tell_load("npn1");
    uint32_t one = tell_place(card, pair1, 7);
    tell_place(other, pair2, 7);
    tell_place(card, all, 11);
    tell_move(4, 1900000);
    tell_move(5, 1900000);
    slices(card, one);
    lists();
    buffers(one, 1, 2);
    libraries();

    /* model lines, good and bad: each load is withdrawn again, so that there is room for the next */
    static const char *const models[] = {
        ".model", ".model m", ".model m npn", ".model m pnp octave=17808740", ".model m npn octave=17808740",
        ".model m npn octave=1", ".model m npn octave=17808740 octave=17808740", ".model m npn octave=17808740 vef=44",
        ".model m npn octave=17808740 bf=1e22", ".model m npn octave=17808740 bf=1e23", ".model m nmos octave=17808740",
        ".model seventeen_letters npn octave=17808740", ".model m npn octave=17808740 bf=", ".model m npn bf",
        ".model m npn octave=17808740 is=123456789012345", ".model m npn octave=17808740 is=1234567890123456",
        ".model m npn octave=17808740 level=503", ".model m npn octave=17808740 icss=-1", ".model m npn octave=999999",
    };
    for (size_t i = 0; i < sizeof models / sizeof models[0]; i++) {
        uint32_t loaded = tell_line(models[i]);
        if (loaded) tell_withdraw(loaded);
    }
    keep();
    wants(desk_load_line(&board, (const uint8_t *)".model", 0, &issue), 23, "line");
    wants(desk_load_line(&board, (const uint8_t *)".model m npn octave=17808740 ", 29, &issue), 23, "line");
    if (issue != 5) end("a place was changed");

    /* every number at its extremes, in every place where a number is asked for */
    for (size_t i = 0; i < FAR; i++) {
        int64_t x = far[i], nodes[11];
        tell_node(x);
        tell_currents(x);
        tell_who(x);
        tell_sum(x);
        if (x != card && x != other) tell_place(x, pair1, 7);
        for (int k = 0; k < 11; k++) {
            memcpy(nodes, all, sizeof nodes);
            nodes[k] = x;
            uint32_t placed = tell_place(card, nodes, k < 7 ? 7 : 11);
            if (placed) tell_lift(placed);
        }
        tell_move(x, 0);
        tell_move(x, x);
        tell_move(2, x);
        tell_move(2, 0);
        const int64_t pairs[4] = {2, 1000, x, x}, first[4] = {x, 0, 2, 0}, last[4] = {2, x, 2, 0};
        tell_moves(pairs, 4);
        tell_moves(first, 4);
        tell_moves(last, 4);
        tell_move(0, 0);
        tell_move(1, 0);
        tell_withdraw(x);
        if (x < 0 || x > 6) tell_lift(x);
    }

    /* slices as a host may write them: the lines cannot say these, so the board is asked alone */
    static const int64_t nowhere[2] = {20, 0}, too_much[2] = {1, 600000};
    for (size_t i = 0; i < FAR; i++) {
        uint32_t who = 6, branch = 7;
        int64_t kept = volts[9], v = 8, t = 9;
        volts[9] = far[i];
        keep();
        int outside = far[i] < -2500000 || far[i] > 2500000;
        wants(desk_read_node(&board, volts, DESK_NODES, totals, DESK_NODES, 0, &v, &t), outside ? 13 : 0, "node");
        wants(desk_move(&board, volts, DESK_NODES, totals, DESK_NODES, 20, 0, &who, &branch), outside ? 13 : 0, "move");
        wants(desk_move_in_place(&board, volts, DESK_NODES, totals, DESK_NODES, nowhere, 2, &who, &branch),
              outside ? 13 : 0, "in place");
        volts[9] = kept;
    }
    totals[1] = INT64_MAX;
    keep();
    uint32_t who = 6, branch = 7;
    wants(desk_move(&board, volts, DESK_NODES, totals, DESK_NODES, 1, 600000, &who, &branch), 10, "move");
    wants(desk_move_in_place(&board, volts, DESK_NODES, totals, DESK_NODES, too_much, 2, &who, &branch), 10,
          "in place");
    if (who != 6 || branch != 7) end("a place was changed");
    close_files();
    printf("every wrong length and number has its answer\n");
    return 0;
}
