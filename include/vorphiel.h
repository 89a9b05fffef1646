/* The Vorphiel layer planner, for hosts in C and other languages.
 *
 * docs/FORMAT.md lays down the bytes of a net, its timing and its cost; docs/CUSTOMERS.md says what stands here at
 * more length, with worked examples.
 *
 * Every call answers for every input: there is nothing that the caller must see to beforehand, but what is said under
 * Pointers below. Each call on a net, a block or a desk returns a refusal number, 0 if it accepts, or a struct that
 * holds one. On a refusal every result is 0 and nothing lent is changed, with one exception: after 12 the table is all
 * zero. The numbers:
 *   1  fewer than three bytes are left where a field is due, or the payload is not all there
 *   2  a tag that is not allowed there, or a length that its kind does not have
 *   3  a number outside its range (docs/FORMAT.md has them all)
 *   4  a 256th node after the driver, or a 64th buffer
 *   5  a bad parent: not a lower number, a sink, or one that has two children already
 *   6  a childless node that is no sink
 *   7  the plan's length is not the number of stages; on a desk, a stage number that is not below it
 *   8  a layer number that is not below the layer count
 *   9  p above 1,000, or q outside 1 to 1,000
 *  10  the plan buffer is shorter than the number of stages
 *  11  no plan of the net meets timing
 *  12  the table has too few columns
 *  13  bytes that are no block: more than 65,536, another tag than 6, or cut short
 *  14  the number of rounds is outside 1 to 29
 *  15  a net above 4,096 bytes, for a desk
 *  16  a desk that was never opened
 *  17  setting a stage that is locked
 * Where the fault of a net refused with 1 to 6 is: nets/hex.py explain FILE.
 *
 * Integration (docs/CUSTOMERS.md, Integration, has link lines and what was measured):
 *   Platform  Linux on x86-64, ELF; every x86-64 processor will do. Needs memcpy and memset, and nothing else.
 *   State     none: no data, memory, file or lock of its own. Calls may run in several threads at once if each has its
 *             own table, plan buffer, desk and results; what is only read they may share.
 *   Stack     at most 180 kB for vorphiel_report, 111 kB for vorphiel_plan and vorphiel_plan_rounds, 50 kB for
 *             vorphiel_judge and vorphiel_desk_read, and 13 kB for the others, as measured. A thread with 256 kB has
 *             room for every call.
 *   Pointers  Each is valid for the length given with it, which is counted in entries for a table and in bytes for all
 *             else. With length 0 it may be null. A pointer to a result is never null. Bytes need no alignment, tables
 *             and results that of their type. A pointer to a desk is never null; VORPHIEL_DESK_ALIGNMENT is its
 *             alignment. What a call writes (table, plan buffer, results, desk) overlaps nothing else that it is
 *             given; what it only reads (net, judged plan, block) may overlap.
 */
#ifndef VORPHIEL_H
#define VORPHIEL_H

#include <stddef.h>
#include <stdint.h>

/* The version of this header, 1.1.0, as one number: major * 10,000 + minor * 100 + patch. CHANGELOG.md says what each
 * version brought. */
#define VORPHIEL_VERSION 10100

#ifdef __cplusplus
extern "C" {
#endif

/* The version of the library that is linked, counted as VORPHIEL_VERSION is. A host that wants to be sure that header
 * and library belong together compares the two. */
uint64_t vorphiel_version(void);

/* Reads a net, whose layers have tag 1, or tag 7 and a via resistance each. Accepted: the counts of its nodes (driver
 * included), stages and layers. Refused with 1 to 6: the first fault met. */
uint8_t vorphiel_check(const uint8_t *net, size_t net_len, uint64_t *nodes, uint64_t *stages, uint64_t *layers);

/* Judges a plan, one layer number a stage. Accepted: the plan's exact cost, and its exact slack in ticks, which may be
 * negative; vias are counted where the net has them. Refused with 1 to 6 for the net, then 7, then 8. */
uint8_t vorphiel_judge(const uint8_t *net, size_t net_len, const uint8_t *plan, size_t plan_len,
                       uint64_t *cost, int64_t *slack);

/* Plans a net of s stages with share p/q: finds a plan that meets timing and costs at most (1 + p/q) times as much as
 * the cheapest that does. A share of 0 (p = 0) gives the cheapest plan.
 *
 * Accepted:
 *   plan    its first s bytes are the plan, one layer number a stage; later bytes keep their values
 *   cost    the plan's cost, and
 *   slack   its slack in ticks, 0 or more: both as vorphiel_judge gives them
 *   k       the exponent of the grain 2^k
 *   floor   2^k times the least rounded cost of the plans of the net that meet timing; each stage's cost is divided by
 *           2^k and rounded down
 *   table   all zero, every entry
 * The floor is at most the cost of every plan of the net that meets timing, and q * cost <= (q + p) * floor. It is
 * never above cost, so that cost - floor is no less than 0, and with p = 0 it is cost. Whoever plans the same net
 * bytes with the same p and q and is accepted gets the same cost, slack, k and floor.
 *
 * So q * cost <= (q + p) * (the cost of every plan of the net that meets timing). Among the plans that meet timing
 * with the least cost rounded to the grain, the plan is the first in the order of stage 0's layer, then stage 1's,
 * and so on.
 *
 * Refused with 1 to 6 for the net, then 9, 10, 11, 12. The plan buffer is unchanged after every refusal. The table is
 * unchanged after 1 to 11 and all zero after 12.
 *
 * The table is room to work in. Its columns are table_len / (s + 2), rounded down; 12 is given just where they are
 * fewer than the search needs at the grain. vorphiel_check gives s, which is 64 at most. Never too short is
 *   with p at least 1, a table of (s + ceil(2qs / p)) * (s + 2) entries; for the shares 1/1 to 1/10
 *     vorphiel_table_entries gives the length;
 *   at every share, 0 among them, a table of (c + 1) * (s + 2) entries, if some plan that meets timing costs c. So for
 *     the cheapest plan: plan at any share first, and lend so many entries by the cost that this gave.
 *
 * The caller need not see to what table and plan buffer hold beforehand, to their lengths, to the ranges of p and q,
 * to p/q being in lowest terms, or to whether the net can be read or any plan of it meets timing: each of these is
 * answered by a result or by a number above. */
uint8_t vorphiel_plan(const uint8_t *net, size_t net_len, uint64_t p, uint64_t q, int64_t *table, size_t table_len,
                      uint8_t *plan, size_t plan_len, uint64_t *cost, int64_t *slack, uint64_t *k, uint64_t *floor);

/* Plans a net of s stages by at most r rounds, 1 to 29, and gives the cheapest plan that they found. The rounds run at
 * k = 28, 27 and down; each finds the least cost rounded to 2^k of the plans that meet timing, and the plan that
 * vorphiel_plan gives at the grain 2^k. They end early before a k that needs more columns than the table has. That is
 * no refusal: `rounds` tells.
 *
 * Accepted:
 *   plan    its first s bytes are the cheapest plan of the rounds by true cost, that of the larger k among equals;
 *           later bytes keep their values
 *   cost    the plan's cost, and
 *   slack   its slack in ticks, 0 or more: both as vorphiel_judge gives them
 *   floor   the largest, over the rounds, of 2^k times the least rounded cost: at most the cost of every plan of the
 *           net that meets timing
 *   rounds  how many rounds were run, 1 to r; the last at k = 29 - rounds
 *   table   all zero, every entry
 * With k of the last round, cost - floor is 0 or more and at most s * (2^k - 1). So after 29 rounds the plan is the
 * cheapest, and floor is cost. Of two calls that differ only in r, both 1 to 29, that with the larger r gives no
 * dearer plan and no lower floor.
 *
 * Refused with 1 to 6 for the net, then 14, 10, 11, 12; 12 just where the table has no column. Plan buffer and table
 * are left as by vorphiel_plan.
 *
 * The columns are table_len / (s + 2), rounded down. With 2^(r - 1) columns all r rounds are run; so they are, if any
 * plan that meets timing costs c, with c / 2^(29 - r) + 1 columns. Longer tables change nothing. */
uint8_t vorphiel_plan_rounds(const uint8_t *net, size_t net_len, uint64_t r, int64_t *table, size_t table_len,
                             uint8_t *plan, size_t plan_len, uint64_t *cost, int64_t *slack,
                             uint64_t *floor, uint64_t *rounds);

/* The wall chart of table lengths: the entries that always serve a net of s stages at share 1/q, (s + 2) * (s + 2qs),
 * for s from 1 to 64 and q from 1 to 10. 0 for every other s or q: the chart has no number there. A net of s stages
 * that is planned with share 1/q and a table of the chart's length or longer is never refused with 12. */
uint64_t vorphiel_table_entries(uint64_t s, uint64_t q);

/* The totals over the nets of a block. With refusal 13 all else is 0. */
struct vorphiel_totals {
    uint8_t refusal;      /* 13 for bytes that are no block, else 0 */
    uint64_t nets;        /* the nets of the block: those planned and those refused */
    uint64_t planned;     /* the nets that were planned */
    uint64_t refused[13]; /* refused[r]: the nets that planning refused with r (1 to 6, 11, 12); other entries are 0 */
    uint64_t cost;        /* the cost of the plans found, together */
    uint64_t lengths[16]; /* lengths[l]: the total edge length on layer number l over the planned nets */
};

/* Reports over a block: plans each of its nets and gives the totals; the plans themselves are not kept. A block is a
 * run of fields of tag 6 (the tag, two bytes of payload length, payload), each with the bytes of a net as payload,
 * 65,536 bytes in all at most. No bytes at all are a block of no nets.
 *
 * Refused with 13, before any net is planned: the block is longer, has another tag or is cut short. That nets are
 * refused is no refusal of the block: they are counted in refused by their numbers and add nothing to cost and
 * lengths. A payload of no bytes is a net refused with 1.
 *
 * Each net is planned as the program plan_net does: as by vorphiel_plan with share 1/4, a table of 8,192 entries and a
 * plan buffer of 64. So 12 is given to some nets of 30 stages and more that a host can plan with a longer table.
 *
 * planned and the counts in refused add up to nets; lengths add up to the wire of the planned nets, all their edge
 * lengths; 4 times cost is at most 5 times what any plans that meet timing would cost for the planned nets together.
 * No total overflows, whatever the block holds. */
struct vorphiel_totals vorphiel_report(const uint8_t *block, size_t block_len);

/* A desk for hand changes: a copy of a net, a plan and a lock for each stage, in one record that the host lends and
 * the calls alter there. Cleared memory (every byte 0, as memset leaves it) is a desk never opened. It holds no
 * pointers: a host may copy it, move it, and put an earlier copy back; each copy is a desk by itself, for libraries of
 * the same version.
 *
 * A host may look at it. stages and layers are the counts of the net, 0 on a desk never opened; for each stage t below
 * stages, plan[t] is its layer, and locks[t] is 1 if it is locked, else 0; used and net are the bytes of the net. Only
 * the calls should write there. What is said below is said of a desk that was cleared, and that only these calls
 * altered since. Whatever else a host wrote there, no call reads or writes beyond the desk, and each answers: with
 * results, or with a refusal, one of 1 to 8 and 15 to 17, which gives zeros and leaves the desk as it was.
 *
 * A host in another language lends vorphiel_desk_size() bytes, at an address that is a multiple of the alignment. */
#define VORPHIEL_DESK_SIZE 4248
#define VORPHIEL_DESK_ALIGNMENT 8

struct vorphiel_desk {
    uint64_t used;
    uint64_t stages;
    uint64_t layers;
    uint8_t net[4096];
    uint8_t plan[64];
    uint8_t locks[64];
};

/* The counts of a net, as vorphiel_check gives them; 0 with a refusal. */
struct vorphiel_checked {
    uint8_t refusal;
    uint64_t nodes;
    uint64_t stages;
    uint64_t layers;
};

/* The cost and slack of a plan, as vorphiel_judge gives them; 0 with a refusal. */
struct vorphiel_judged {
    uint8_t refusal;
    uint64_t cost;
    int64_t slack;
};

/* The size of a desk in bytes, VORPHIEL_DESK_SIZE of the library that is linked. */
uint64_t vorphiel_desk_size(void);

/* Opens a desk: copies the net and puts every stage on layer 0, unlocked. An open desk is replaced. Refused with 15,
 * before the bytes are looked at, then with 1 to 6; the desk is then as it was. */
struct vorphiel_checked vorphiel_desk_open(struct vorphiel_desk *desk, const uint8_t *net, size_t net_len);

/* Moves a stage to a layer. Refused with 16, then 7 for a stage number that is not below the number of stages, then 8
 * for the layer, then 17, also where the locked stage is on that layer already; the desk is then as it was. */
uint8_t vorphiel_desk_set(struct vorphiel_desk *desk, uint64_t stage, uint64_t layer);

/* Locks a stage, so that it cannot be set, or unlocks it; a stage that is so already stays so. Refused with 16, then
 * 7; the desk is then as it was. */
uint8_t vorphiel_desk_lock(struct vorphiel_desk *desk, uint64_t stage);
uint8_t vorphiel_desk_unlock(struct vorphiel_desk *desk, uint64_t stage);

/* Reads the cost and slack of the net and the plan on the desk: what vorphiel_judge gives for them. Refused with 16.
 * The desk is not altered. */
struct vorphiel_judged vorphiel_desk_read(const struct vorphiel_desk *desk);

#ifdef __cplusplus
}
#endif

#endif
