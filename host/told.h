/* A board with its two slices, and each call on it made twice over: by the library, and as a line of the desk program.
   The line goes to one file and what the library answered, in the desk's words, to another, so that the desk program's
   own answers to the first can be laid beside the second. A refused call that changes anything ends the program. Each
   move is made once more, in place, on the board and slices that were: all must come out the same, to the last byte. */
#ifndef TOLD_H
#define TOLD_H
#include "desk.h"
#include "libc.h"

static struct desk_board board;
static int64_t volts[DESK_NODES], totals[DESK_NODES];
static uint8_t library[53264]; /* 16 + 208 * 256: the longest */
static size_t library_n;
static FILE *lines, *answers;

/* ---- what was there before a call, and whether it still is */

static struct desk_board board_was;
static int64_t volts_were[DESK_NODES], totals_were[DESK_NODES];

static inline void keep(void) {
    memcpy(&board_was, &board, sizeof board);
    memcpy(volts_were, volts, sizeof volts);
    memcpy(totals_were, totals, sizeof totals);
}

static inline void end(const char *why) {
    printf("%s\n", why);
    exit(1);
}

static inline int changed(void) {
    return memcmp(&board_was, &board, sizeof board) || memcmp(volts_were, volts, sizeof volts) ||
           memcmp(totals_were, totals, sizeof totals);
}

/* ---- answers in the desk's words */

static inline void refused(uint32_t r, uint32_t who, uint32_t branch) {
    if (changed()) end("a refused call changed something");
    if (r == 15 || r == 18)
        fprintf(answers, "refused %u %u %u\n", r, who, branch);
    else
        fprintf(answers, "refused %u\n", r);
}

static inline uint32_t numbered(const char *what, uint32_t r, uint32_t issue, uint32_t was, uint32_t who,
                                uint32_t branch) {
    if (r == 0) {
        fprintf(answers, "%s %u\n", what, issue);
        return issue;
    }
    if (issue != was) end("a refused call told a number");
    refused(r, who, branch);
    return 0;
}

static inline void word(const uint8_t *name, size_t n) {
    for (size_t i = 0; i < n; i++) fprintf(lines, "%c", name[i]);
}

/* ---- the calls */

static inline void tell_library(const char *path) {
    FILE *f = fopen(path, "rb");
    static uint8_t names[4096];
    static uint64_t words[6144];
    uint32_t cards = 99, version = 99, r;
    if (!f) end("the library cannot be opened");
    library_n = fread(library, 1, sizeof library, f);
    fclose(f);
    keep();
    r = desk_read_library(library, library_n, names, sizeof names, words, 6144, &cards, &version);
    fprintf(lines, "library %s\n", path);
    if (r == 0)
        fprintf(answers, "library %u\n", cards);
    else
        refused(r, 0, 0);
}

static inline void tell_fresh(void) {
    if (desk_fresh(&board, volts, DESK_NODES, totals, DESK_NODES)) end("a fresh board was refused");
}

static inline uint32_t tell_record(const char *name, const uint8_t *record, size_t n) {
    uint32_t issue = 4000000000u;
    keep();
    uint32_t r = desk_load(&board, (const uint8_t *)name, strlen(name), record, n, &issue);
    fprintf(lines, "record %s ", name);
    if (n == 0) fprintf(lines, "-");
    for (size_t i = 0; i < n; i++) fprintf(lines, "%02x", record[i]);
    fprintf(lines, "\n");
    return numbered("card", r, issue, 4000000000u, 0, 0);
}

/* found in the library, then loaded under that name */
static inline uint32_t tell_load(const char *name) {
    size_t at = 77, size = 77, n = strlen(name);
    uint32_t issue = 4000000000u;
    keep();
    uint32_t r = desk_find(library, library_n, (const uint8_t *)name, n, &at, &size);
    fprintf(lines, "load %s\n", name);
    if (r) {
        if (at != 77 || size != 77) end("a refused find told a place");
        refused(r, 0, 0);
        return 0;
    }
    r = desk_load(&board, (const uint8_t *)name, n, library + at, size, &issue);
    return numbered("card", r, issue, 4000000000u, 0, 0);
}

/* a line that begins with `.model` */
static inline uint32_t tell_line(const char *line) {
    uint32_t issue = 4000000000u;
    keep();
    uint32_t r = desk_load_line(&board, (const uint8_t *)line, strlen(line), &issue);
    fprintf(lines, "%s\n", line);
    return numbered("card", r, issue, 4000000000u, 0, 0);
}

static inline void tell_find(const uint8_t *name, size_t n) {
    size_t at = 77, size = 77;
    keep();
    uint32_t r = desk_find(library, library_n, name, n, &at, &size);
    fprintf(lines, "find ");
    word(name, n);
    fprintf(lines, "\n");
    if (r == 0)
        fprintf(answers, "record %zu\n", at);
    else
        refused(r, 0, 0);
}

static inline uint32_t tell_place(int64_t card, const int64_t *nodes, size_t n) {
    uint32_t issue = 4000000000u, who = 0, branch = 0;
    keep();
    uint32_t r = desk_place(&board, volts, DESK_NODES, totals, DESK_NODES, card, nodes, n, &issue, &who, &branch);
    fprintf(lines, "place %lld", (long long)card);
    for (size_t i = 0; i < n; i++) fprintf(lines, " %lld", (long long)nodes[i]);
    fprintf(lines, "\n");
    return numbered("transistor", r, issue, 4000000000u, who, branch);
}

static inline void done(const char *what, uint32_t r, uint32_t who, uint32_t branch) {
    if (r == 0)
        fprintf(answers, "%s\n", what);
    else
        refused(r, who, branch);
}

/* the move that was just made, on what was there before it; by then it is known that a refused one changed nothing */
static inline void in_place(const int64_t *pairs, size_t n, uint32_t r, uint32_t who, uint32_t branch) {
    uint32_t its_who = 0, its_branch = 0;
    uint32_t its = desk_move_in_place(&board_was, volts_were, DESK_NODES, totals_were, DESK_NODES, pairs, n, &its_who,
                                      &its_branch);
    if (its != r || its_who != who || its_branch != branch) end("a move in place answers otherwise");
    if (changed()) end("a move in place leaves something else");
}

static inline uint32_t tell_move(int64_t node, int64_t microvolts) {
    uint32_t who = 0, branch = 0;
    keep();
    uint32_t r = desk_move(&board, volts, DESK_NODES, totals, DESK_NODES, node, microvolts, &who, &branch);
    fprintf(lines, "move %lld %lld\n", (long long)node, (long long)microvolts);
    done("moved", r, who, branch);
    const int64_t pair[2] = {node, microvolts};
    in_place(pair, 2, r, who, branch);
    return r;
}

static inline uint32_t tell_moves(const int64_t *pairs, size_t n) {
    uint32_t who = 0, branch = 0;
    keep();
    uint32_t r = desk_move_all(&board, volts, DESK_NODES, totals, DESK_NODES, pairs, n, &who, &branch);
    fprintf(lines, "moves");
    for (size_t i = 0; i < n; i++) fprintf(lines, " %lld", (long long)pairs[i]);
    fprintf(lines, "\n");
    done("moved", r, who, branch);
    in_place(pairs, n, r, who, branch);
    return r;
}

static inline void tell_lift(int64_t transistor) {
    keep();
    uint32_t r = desk_lift(&board, volts, DESK_NODES, totals, DESK_NODES, transistor);
    fprintf(lines, "lift %lld\n", (long long)transistor);
    done("lifted", r, 0, 0);
}

static inline void tell_withdraw(int64_t card) {
    keep();
    uint32_t r = desk_withdraw(&board, card);
    fprintf(lines, "withdraw %lld\n", (long long)card);
    done("withdrawn", r, 0, 0);
}

static inline void tell_lookup(const uint8_t *name, size_t n) {
    uint32_t issue = 4000000000u;
    keep();
    uint32_t r = desk_look_up(&board, name, n, &issue);
    fprintf(lines, "lookup ");
    word(name, n);
    fprintf(lines, "\n");
    numbered("card", r, issue, 4000000000u, 0, 0);
    if (changed()) end("a query changed something");
}

static inline void tell_node(int64_t node) {
    int64_t v = 1234567, t = 7654321;
    keep();
    uint32_t r = desk_read_node(&board, volts, DESK_NODES, totals, DESK_NODES, node, &v, &t);
    fprintf(lines, "node %lld\n", (long long)node);
    if (r == 0) {
        if (v != volts[node] || t != totals[node]) end("a node is told apart from its slices");
        fprintf(answers, "node %lld %lld %lld\n", (long long)node, (long long)v, (long long)t);
    } else {
        if (v != 1234567 || t != 7654321) end("a refused query told a number");
        refused(r, 0, 0);
    }
    if (changed()) end("a query changed something");
}

static inline void tell_currents(int64_t transistor) {
    int64_t ticks[DESK_BRANCHES];
    memset(ticks, 85, sizeof ticks);
    keep();
    uint32_t r = desk_read_currents(&board, transistor, ticks, DESK_BRANCHES);
    fprintf(lines, "currents %lld\n", (long long)transistor);
    if (r == 0) {
        fprintf(answers, "currents");
        for (int i = 0; i < DESK_BRANCHES; i++) fprintf(answers, " %lld", (long long)ticks[i]);
        fprintf(answers, "\n");
    } else {
        refused(r, 0, 0);
    }
    if (changed()) end("a query changed something");
}

static inline void tell_who(int64_t node) {
    uint32_t list[DESK_TRANSISTORS], count = 99;
    keep();
    uint32_t r = desk_list_node(&board, node, list, DESK_TRANSISTORS, &count);
    fprintf(lines, "who %lld\n", (long long)node);
    if (r == 0) {
        fprintf(answers, "who");
        for (uint32_t i = 0; i < count; i++) fprintf(answers, " %u", list[i]);
        fprintf(answers, "\n");
    } else {
        refused(r, 0, 0);
    }
    if (changed()) end("a query changed something");
}

static inline void tell_sum(int64_t node) {
    uint32_t transistors = 99, cards = 99;
    uint64_t largest = 99;
    keep();
    uint32_t r = desk_sum_up(&board, node, &transistors, &cards, &largest);
    fprintf(lines, "sum %lld\n", (long long)node);
    if (r == 0)
        fprintf(answers, "sum %u %u %llu\n", transistors, cards, (unsigned long long)largest);
    else
        refused(r, 0, 0);
    if (changed()) end("a query changed something");
}

static inline void tell_all_nodes(void) {
    for (int64_t n = 0; n < DESK_NODES; n++) tell_node(n);
}

static inline void open_files(const char *said, const char *answered) {
    lines = fopen(said, "w");
    answers = fopen(answered, "w");
    if (!lines || !answers) end("a file cannot be opened");
}

static inline void close_files(void) {
    fclose(lines);
    fclose(answers);
}

#endif
