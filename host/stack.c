/* How much stack each call takes on a full board: 64 transistors of version 2 on one node, and every node moved.
   The stack below a call is painted before it and looked through after it. Prints the bytes of each call, the deepest
   of several tries, and ends with 1 where one is above DESK_STACK.
   stack LIBRARY */
#include "desk.h"
#include "libc.h"

static struct desk_board board;
static int64_t volts[DESK_NODES], totals[DESK_NODES];
static uint8_t library[53264];
static size_t library_n;

static void end(const char *why) {
    printf("%s\n", why);
    exit(2);
}

#define PAINTED (4 * DESK_STACK)

static struct {
    const char *name;
    size_t most;
} calls[17];

static uint8_t *low; /* the first byte that is painted */

/* up to what this function may use itself */
__attribute__((noinline)) static void paint(void) {
    uint8_t *here;
    __asm__ volatile("mov %%rsp, %0" : "=r"(here));
    low = here - PAINTED;
    for (volatile uint8_t *p = low; p < here - 256; p++) *p = 0xa5;
}

/* the bytes from the first that is not painted any more up to the top */
static size_t painted_over(void) {
    const volatile uint8_t *p = low;
    while (p < low + PAINTED && *p == 0xa5) p++;
    return (size_t)(low + PAINTED - p);
}

static void took(const char *name, size_t bytes) {
    int k = 0;
    while (calls[k].name && calls[k].name != name) k++;
    calls[k].name = name;
    if (bytes > calls[k].most) calls[k].most = bytes;
}

/* CALL's own name is its key; what stands between the two functions is the call and its arguments */
#define MEASURE(name, call)         \
    do {                            \
        paint();                    \
        (void)(call);               \
        took(name, painted_over()); \
    } while (0)

static const char LOAD[] = "load", LINE[] = "load_line", PLACE[] = "place", MOVE[] = "move", ALL[] = "move_all";
static const char LIFT[] = "lift", OFF[] = "withdraw", LOOK[] = "look_up", NODE[] = "read_node";
static const char OPEN[] = "read_currents", LIST[] = "list_node", SUM[] = "sum_up", FRESH[] = "fresh";
static const char READ[] = "read_library", FIND[] = "find", PARTS[] = "move_in_place";

int main(int count, char **given) {
    static const char line[] = ".model npn1f npn level=504 is=5.1e-18 ik=12e-3 bf=140 xibi=.18 ibf=0.4e-15 mlf=2. "
                               "bri=4 iss=9e-18 icss=9e-18 iks=60e-6 octave=17808740 ibr=0.25e-15";
    static uint8_t names[4096];
    static uint64_t words[6144];
    uint32_t issue = 0, who = 0, branch = 0, cards = 0, version = 0, list[DESK_TRANSISTORS];
    uint64_t largest = 0;
    int64_t v = 0, t = 0, ticks[DESK_BRANCHES], pairs[2 * DESK_NODES], nodes[11];
    size_t at = 0, size = 0;
    if (count != 2) end("stack LIBRARY");
    FILE *f = fopen(given[1], "rb");
    if (!f) end("the library cannot be opened");
    library_n = fread(library, 1, sizeof library, f);
    fclose(f);
    MEASURE(READ, desk_read_library(library, library_n, names, sizeof names, words, 6144, &cards, &version));
    MEASURE(FIND, desk_find(library, library_n, (const uint8_t *)"npn1r", 5, &at, &size));
    MEASURE(FRESH, desk_fresh(&board, volts, DESK_NODES, totals, DESK_NODES));
    MEASURE(LOAD, desk_load(&board, (const uint8_t *)"npn1r", 5, library + at, size, &issue));
    MEASURE(LINE, desk_load_line(&board, (const uint8_t *)line, sizeof line - 1, &issue));
    for (int i = 0; i < DESK_TRANSISTORS; i++) {
        for (int k = 0; k < 11; k++) nodes[k] = k < 7 ? 0 : (i + k) % DESK_NODES;
        nodes[10] = 0;
        MEASURE(PLACE, desk_place(&board, volts, DESK_NODES, totals, DESK_NODES, issue > 2 ? 2 : issue, nodes, 11,
                                  &issue, &who, &branch));
    }
    for (int i = 0; i < DESK_NODES; i++) {
        pairs[2 * i] = i;
        pairs[2 * i + 1] = 1000 * (i % 7);
        MEASURE(MOVE, desk_move(&board, volts, DESK_NODES, totals, DESK_NODES, i, 1000 * i, &who, &branch));
        MEASURE(PARTS, desk_move_in_place(&board, volts, DESK_NODES, totals, DESK_NODES, pairs + 2 * i, 2, &who,
                                          &branch));
    }
    MEASURE(ALL, desk_move_all(&board, volts, DESK_NODES, totals, DESK_NODES, pairs, 2 * DESK_NODES, &who, &branch));
    MEASURE(PARTS, desk_move_in_place(&board, volts, DESK_NODES, totals, DESK_NODES, pairs, 2 * DESK_NODES, &who,
                                      &branch));
    for (int i = 0; i < DESK_NODES; i++) {
        pairs[2 * i + 1] = i % 2 ? 2500000 : -2500000;
        MEASURE(MOVE, desk_move(&board, volts, DESK_NODES, totals, DESK_NODES, i, pairs[2 * i + 1], &who, &branch));
    }
    MEASURE(ALL, desk_move_all(&board, volts, DESK_NODES, totals, DESK_NODES, pairs, 2 * DESK_NODES, &who, &branch));
    MEASURE(PARTS, desk_move_in_place(&board, volts, DESK_NODES, totals, DESK_NODES, pairs, 2 * DESK_NODES, &who,
                                      &branch));
    MEASURE(LOOK, desk_look_up(&board, (const uint8_t *)"npn1r", 5, &issue));
    MEASURE(NODE, desk_read_node(&board, volts, DESK_NODES, totals, DESK_NODES, 0, &v, &t));
    MEASURE(OPEN, desk_read_currents(&board, 3, ticks, DESK_BRANCHES));
    MEASURE(LIST, desk_list_node(&board, 0, list, DESK_TRANSISTORS, &who));
    MEASURE(SUM, desk_sum_up(&board, 0, &who, &branch, &largest));
    if (who != DESK_TRANSISTORS) end("the board is not full");
    MEASURE(LIFT, desk_lift(&board, volts, DESK_NODES, totals, DESK_NODES, 3));
    MEASURE(OFF, desk_withdraw(&board, 1));
    int deep = 0;
    for (int k = 0; calls[k].name; k++) {
        printf("%-14s %6zu\n", calls[k].name, calls[k].most);
        deep |= calls[k].most > DESK_STACK;
    }
    return deep;
}
