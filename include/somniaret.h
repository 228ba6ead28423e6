/* Somniaret for C: what a loop body costs, asked with numbers and bytes. The calls are those of the proved static
   library, which is for x86-64 Linux and its usual C calling convention.

   What holds for every call

   A form is the binary description of one loop body: a counter, then blocks of code with their costs, tests and effects.
   Any bytes may be handed in as a form; what is no form is refused. Every call answers every input, and asks nothing of
   its arguments but that a pointer leads to as much memory, aligned for its type, as the length beside it says; where that
   length is 0 it may be null. A lent buffer overlaps neither the form nor another lent buffer.

   An answer is a structure of 64-bit numbers, returned by value. Its `number` is 0, or that of a refusal, and then `place`
   says where or how much; every other number of a refusal's answer is 0. Without a refusal `place` is 0, but for
   somniaret_rewrite.

   A form's bytes are never changed. A refusal leaves every byte of lent memory as it was; somniaret_sweep_table has two
   exceptions. Without a refusal the bytes past those that the call is said to write are as they were.

   The calls are reentrant. They use no static memory, reserve none and ask nothing of the operating system, so any number
   of threads may call at the same time, each with its own buffers. A call needs at most 176 KiB of stack.

   Refusals

     number  when                                                                  place
     10      1 to 3 bytes left at a record's start, or length beyond the input     record's offset
     11      length wrong for the kind                                             record's offset
     12      unknown kind of record                                                record's offset
     13      first record no counter, a later counter, an effect before any block  record's offset
     14      65th block or 257th effect                                            record's offset
     15      field out of range, or unused and not zero                            record's offset; 0 from somniaret_count
     16      a used target not above its block                                     record's offset
     17      no counter or no block at the end                                     length of the input
     18      an earlier block ends, or the last does not                           block's offset
     19      target beyond the last block                                          block's offset
     20      no loop count exists                                                  0
     40      more than 64 different sets of open edges at a block                  highest such block
     41      more beginnings to walk than the budget                               budget
     42      lent bytes too few                                                    bytes needed
     43      no conflict-free route                                                0
     44      table under 64 entries a block                                        entries needed

   Where several apply, the first bad record decides, and for one record the order is 10 for its start, 12, 11, 10 for its
   length, 13, 14, 15, 16. Then come 17; 18 and 19 block by block, 18 first; 20; 42; 44; 40 or 41; and 43 last. */

#ifndef SOMNIARET_H
#define SOMNIARET_H

/* A program without these headers declares size_t, uint8_t, int32_t, uint32_t and uint64_t itself, before it includes
   this one, and defines SOMNIARET_TYPES_DECLARED. */
#ifndef SOMNIARET_TYPES_DECLARED
#include <stddef.h>
#include <stdint.h>
#endif

#ifdef __cplusplus
extern "C" {
#endif

/* The most blocks of a form. */
#define SOMNIARET_MOST_BLOCKS 64

/* The most bytes that two routes have, one for each block in each. */
#define SOMNIARET_ROUTES_BYTES 128

/* The bytes of an entry in a list of conflicts. */
#define SOMNIARET_LIST_ENTRY_BYTES 5

/* A row of the sweep's table, which is the part of one block, in entries. */
#define SOMNIARET_ROW_ENTRIES 64

/* A way from a block to the end. In a set bit k stands for block k. */
struct somniaret_way {
    uint64_t weight; /* the sum of its costs */
    uint64_t jumped; /* the blocks left by jump or go */
    uint64_t fallen; /* the blocks left by fall */
};

/* An entry of the sweep's table: a pair of sets of open edges, and of the tails with just these the first of the
   heaviest and the first of the lightest. */
struct somniaret_entry {
    uint64_t jumps; /* the blocks whose jump edge is open */
    uint64_t falls; /* the blocks whose fall edge is open */
    struct somniaret_way heaviest;
    struct somniaret_way lightest;
};

struct somniaret_form_answer {
    uint64_t number;
    uint64_t place;
};

struct somniaret_count_answer {
    uint64_t number;
    uint64_t place;
    uint64_t iterations; /* how often the body runs, 1 to 4,294,967,295 */
};

struct somniaret_list_answer {
    uint64_t number;
    uint64_t place;
    uint64_t entries; /* entries of the list */
};

struct somniaret_walk_answer {
    uint64_t number;
    uint64_t place;
    uint64_t iterations;  /* how often the body runs */
    uint64_t weight;      /* the sum of the costs on the heaviest route */
    uint64_t bound;       /* iterations times weight */
    uint64_t least;       /* the sum of the costs on the lightest route */
    uint64_t least_total; /* iterations times least */
    uint64_t walked;      /* conflict-free beginnings of routes, that of block 0 alone included */
};

struct somniaret_sweep_answer {
    uint64_t number;
    uint64_t place;
    uint64_t iterations;  /* how often the body runs */
    uint64_t weight;      /* the sum of the costs on the heaviest route */
    uint64_t bound;       /* iterations times weight */
    uint64_t least;       /* the sum of the costs on the lightest route */
    uint64_t least_total; /* iterations times least */
    uint64_t kept;        /* entries of the longest row, 1 to 64 */
};

/* Are these `len` bytes a form?
   Number 0: they are. Refusals: 10 to 19. */
struct somniaret_form_answer somniaret_verdict(const uint8_t *form, size_t len);

/* Reads a form and writes its body back, into the `out_len` bytes at `out`.
   Number 0: the first `place` bytes of `out` are the form again, as many as it has (3,665 at most).
   Refusals: 10 to 19, 42. */
struct somniaret_form_answer somniaret_rewrite(const uint8_t *form, size_t len, uint8_t *out, size_t out_len);

/* How often does a loop's body run? It runs, the step is added to the counter, and it runs again while the counter, which
   starts as `initial`, stands in the relation to `limit`: 0 is =, 1 is not =, 2 is <, 3 is >=, 4 is >, 5 is <=. A counter
   that leaves 32 bits with its sign does not wrap: such a loop has no count.
   Number 0: `iterations`. Refusals: 15 at place 0 for a relation above 5; 20. */
struct somniaret_count_answer somniaret_count(int32_t initial, int32_t step, uint8_t relation, int32_t limit);

/* Writes the list of a form's conflicts, 5 bytes an entry: kind (1 assignment, 2 edge), first block, its variable (1) or
   outcome (2), second block, its outcome; an outcome is 1 for jump and 2 for fall. Entries ascend by second block, second
   outcome, kind, first block, third byte.
   Number 0: the first 5 * `entries` bytes of `out` are the list. A list may be empty.
   Refusals: 10 to 19, 42. With `out_len` 0 the place of 42 says how many bytes the list has. */
struct somniaret_list_answer somniaret_conflicts(const uint8_t *form, size_t len, uint8_t *out, size_t out_len);

/* Do two conditions on one variable conflict, that is, does no whole number meet both? Relations are those of
   somniaret_count; no number meets a relation above 5, which therefore conflicts with every condition.
   Returns 1 where they conflict and 0 where they do not. */
uint8_t somniaret_pair(uint8_t relation1, int32_t constant1, uint8_t relation2, int32_t constant2);

/* The dearest and the cheapest iteration: the heaviest and the lightest conflict-free route through a form's body, by
   trying every one, the full walk. Its time grows with what is walked, which doubles with every further branch at
   worst; `budget` is the most that may be walked.
   Number 0: `routes` begins with the heaviest route, and the lightest follows at once. Each has a byte for each block
   of the body: 0 not on it, 1 left by jump or go, 2 left by fall, 3 the last block; so the first 3 ends the heaviest.
   Of routes that weigh the same it is the first, where jump comes before fall.
   Refusals: 10 to 20, 42 (under two bytes a block), 41, 43. SOMNIARET_ROUTES_BYTES bytes are never too few. */
struct somniaret_walk_answer somniaret_walk(const uint8_t *form, size_t len, uint32_t budget, uint8_t *routes,
                                            size_t routes_len);

/* The same routes by the sweep, which goes through the blocks from the last to the first and keeps for each the
   heaviest and the lightest tail for every different set of open edges. Its table has room for 16 blocks and is on the
   stack.
   Number 0: `routes` begins with the two routes, as somniaret_walk writes them.
   Refusals: 10 to 20, 42 (under two bytes a block), 44 (from 17 blocks on, with 64 entries a block as the place), 40,
   43. */
struct somniaret_sweep_answer somniaret_sweep(const uint8_t *form, size_t len, uint8_t *routes, size_t routes_len);

/* The sweep with a lent table of `entries` entries. Block b's row is SOMNIARET_ROW_ENTRIES entries, from entry
   SOMNIARET_ROW_ENTRIES * b on. They ascend by jump set, then fall set; what is left of the row is zero.
   Number 0: the rows of all blocks are complete, the entries past them are as they were, and `routes` begins with the
   two routes, as somniaret_walk writes them.
   Refusals: 10 to 20, 42 (under two bytes a block), 44 (under SOMNIARET_ROW_ENTRIES entries a block), 40, 43. The table
   is unchanged, except: with 40 at block b the rows of higher blocks are complete, and row b and those of lower blocks
   are as they were; with 43 all rows are complete. The routes are unchanged.
   SOMNIARET_MOST_BLOCKS * SOMNIARET_ROW_ENTRIES entries are never too few. */
struct somniaret_sweep_answer somniaret_sweep_table(const uint8_t *form, size_t len, struct somniaret_entry *table,
                                                    size_t entries, uint8_t *routes, size_t routes_len);

#ifdef __cplusplus
}
#endif

#endif
