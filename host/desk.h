/* The bias desk as a static library: transistor cards, a board of 32 nodes, and the current that each node must supply.

   The caller owns all memory and lends it for the length of a call. A board is 12,536 bytes, aligned to 8, and opaque:
   its parts have names, but only calls write them. Voltages (microvolts) and totals (ticks of 2^-50 ampere) stand in
   two slices of 32 numbers, a number for each node, which the caller may read whenever no call is running, and may
   write too: every number in them has an answer.

   Every call answers with 0, or with the number of a refusal (docs/RULES.md has all of them). What it tells goes into
   the places that it was lent. A refused call leaves the board, both slices and all lent places and buffers as they
   were, but for one thing: 15 and 18 tell in `who` and `branch` which transistor overloads, and in which branch.
   Anything at all may be asked: every length, every number and every byte has its answer.

   What the caller keeps; nothing else is asked of it:

   1. Memory for a board is filled with zeros, or holds a board, when desk_fresh is called on it. From a desk_fresh that
      answered 0 on, only these calls write it. A board may be moved or copied whole while no call is running.
   2. No other call is made on memory that desk_fresh has not made a board.
   3. Each pointer has the alignment of its type and is not null, also where the length after it is 0. It points to as
      many elements as that length says, or to one where no length follows.
   4. Nothing that one call is lent overlaps anything else that the same call is lent, unless both are `const`.
   5. No two calls run at once on the same board, slice or place. Different boards may be used by different threads: the
      library has no memory of its own.

   The deepest call, a move of a node that 64 transistors name, takes DESK_STACK bytes of stack at most (docs/HOST.md
   has what each was measured to take); the library asks the C library for memcpy and memset alone. */
#ifndef DESK_H
#define DESK_H
#include <stddef.h>
#include <stdint.h>

#ifdef __cplusplus
extern "C" {
#endif

#define DESK_NODES 32       /* numbers in a slice */
#define DESK_BRANCHES 13    /* currents of a transistor */
#define DESK_TRANSISTORS 64 /* as many as can stand on a node */
#define DESK_STACK 65536

/* The members are the library's own: its calls alone write them and tell what stands in them. They have names so that
   desk_move_in_place can lend them one by one; another version of the library may have others. */
struct desk_board {
    uint32_t numbers[480];
    uint16_t powers[240];
    uint64_t ticks[192];
    uint8_t switches[80];
    uint8_t names[256];
    uint32_t held[16];
    uint64_t next;
    uint32_t issues[DESK_TRANSISTORS];
    uint32_t cards[DESK_TRANSISTORS];
    uint8_t seats[DESK_TRANSISTORS];
    uint8_t nodes[704];
    uint64_t naming[DESK_NODES];
    int64_t currents[DESK_BRANCHES * DESK_TRANSISTORS];
};

/* Its size and alignment, and where the members stand that are lent, as the library has them. */
#ifndef __cplusplus
_Static_assert(sizeof(struct desk_board) == 12536 && _Alignof(struct desk_board) == 8, "a board is not the prover's");
#define DESK_AT(member, at) _Static_assert(offsetof(struct desk_board, member) == (at), #member " stands elsewhere")
DESK_AT(numbers, 0);
DESK_AT(powers, 1920);
DESK_AT(ticks, 2400);
DESK_AT(switches, 3936);
DESK_AT(issues, 4344);
DESK_AT(seats, 4856);
DESK_AT(nodes, 4920);
DESK_AT(naming, 5624);
DESK_AT(currents, 5880);
#undef DESK_AT
#endif

/* ---- a library of cards */

/* Its names go to the start of `names`, 16 bytes each, the numbers of its records to the start of `words`, as bits, and
   how many cards it has and of which version to the two places: 1, 2, 3, 5. */
uint32_t desk_read_library(const uint8_t *library, size_t library_n, uint8_t *names, size_t names_n, uint64_t *words,
                           size_t words_n, uint32_t *cards, uint32_t *version);

/* Where the record of a card stands in the library, and how many bytes it has: 1, 2, 3, 2, 4. */
uint32_t desk_find(const uint8_t *library, size_t library_n, const uint8_t *name, size_t name_n, size_t *at,
                   size_t *size);

/* ---- calls that change a board */

/* An empty board, and every voltage and total 0; refused, the memory is left as it was: 13 where a slice has not 32
   numbers. */
uint32_t desk_fresh(struct desk_board *board, int64_t *volts, size_t volts_n, int64_t *totals, size_t totals_n);

/* A card under a name, from the bytes of its record; its issue number: 1, 2, 6, 7, 8, 19, 9, 10, 11, 17. */
uint32_t desk_load(struct desk_board *board, const uint8_t *name, size_t name_n, const uint8_t *record, size_t record_n,
                   uint32_t *issue);

/* The card of a `.model` line, without spaces or a line end at either end of it; its issue number: 23, 2, 20, 21, 22,
   then those of desk_load. */
uint32_t desk_load_line(struct desk_board *board, const uint8_t *line, size_t line_n, uint32_t *issue);

/* A transistor on a card, by its issue number, and on the nodes of its roles, E1 B1 B2 C1 C2 C4 S, or these and
   E B C C3; its issue number: 1 where the nodes are not 7 or 11, then 13 for the slices, 12, 13, 14, 11, 17, 15 or 18,
   10. */
uint32_t desk_place(struct desk_board *board, const int64_t *volts, size_t volts_n, int64_t *totals, size_t totals_n,
                    int64_t card, const int64_t *nodes, size_t nodes_n, uint32_t *issue, uint32_t *who,
                    uint32_t *branch);

/* A node moved to a voltage: 13 for the slices, 13, 15 or 18, 10. */
uint32_t desk_move(struct desk_board *board, int64_t *volts, size_t volts_n, int64_t *totals, size_t totals_n,
                   int64_t node, int64_t microvolts, uint32_t *who, uint32_t *branch);

/* Nodes moved together, by a node, its microvolts, a node, its microvolts and so on, the last pair of a node holding:
   13 for the slices, 1 where it is not 1 to 32 pairs, 13, 15 or 18, 10. */
uint32_t desk_move_all(struct desk_board *board, int64_t *volts, size_t volts_n, int64_t *totals, size_t totals_n,
                       const int64_t *pairs, size_t pairs_n, uint32_t *who, uint32_t *branch);

/* The same, and nothing of the board is copied: for a host that moves often. The library has it over a board's parts,
   those that a move reads and the one that it changes, `currents`: each pointer is to the whole member of its name, all
   of them of one board. */
uint32_t desk_move_lent(int64_t *volts, size_t volts_n, int64_t *totals, size_t totals_n, int64_t *currents,
                        const uint32_t *numbers, const uint16_t *powers, const uint64_t *ticks, const uint8_t *switches,
                        const uint32_t *issues, const uint8_t *seats, const uint8_t *nodes, const uint64_t *naming,
                        const int64_t *pairs, size_t pairs_n, uint32_t *who, uint32_t *branch);

static inline uint32_t desk_move_in_place(struct desk_board *board, int64_t *volts, size_t volts_n, int64_t *totals,
                                          size_t totals_n, const int64_t *pairs, size_t pairs_n, uint32_t *who,
                                          uint32_t *branch) {
    return desk_move_lent(volts, volts_n, totals, totals_n, board->currents, board->numbers, board->powers,
                          board->ticks, board->switches, board->issues, board->seats, board->nodes, board->naming,
                          pairs, pairs_n, who, branch);
}

/* A transistor taken off: 13 for the slices, 12, 10. */
uint32_t desk_lift(struct desk_board *board, const int64_t *volts, size_t volts_n, int64_t *totals, size_t totals_n,
                   int64_t transistor);

/* A card given back: 12, 16. */
uint32_t desk_withdraw(struct desk_board *board, int64_t card);

/* ---- calls that only read it */

/* The newest card of a name: 2, 4. */
uint32_t desk_look_up(const struct desk_board *board, const uint8_t *name, size_t name_n, uint32_t *issue);

/* A node's voltage and total, as the slices have them: 13. */
uint32_t desk_read_node(const struct desk_board *board, const int64_t *volts, size_t volts_n, const int64_t *totals,
                        size_t totals_n, int64_t node, int64_t *microvolts, int64_t *ticks);

/* What each branch of a transistor carries, in ticks, 13 numbers at the start of `currents`: 12, 5. */
uint32_t desk_read_currents(const struct desk_board *board, int64_t transistor, int64_t *currents, size_t currents_n);

/* The transistors that name a node, in rising order at the start of `list`, and how many they are: 13, 5. */
uint32_t desk_list_node(const struct desk_board *board, int64_t node, uint32_t *list, size_t list_n, uint32_t *count);

/* How many transistors name a node, on how many cards, and the largest size of a branch there, in ticks: 13. */
uint32_t desk_sum_up(const struct desk_board *board, int64_t node, uint32_t *transistors, uint32_t *cards,
                     uint64_t *largest);

#ifdef __cplusplus
}
#endif
#endif
