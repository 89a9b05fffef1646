/* For the programs of this folder: inputs from files, and each call on an input with all that it answers. */
#ifndef CALLS_H
#define CALLS_H

#include "vorphiel.h"

#include <stdio.h>
#include <stdlib.h>
#include <string.h>

enum {
    MOST_BYTES = 65536 + 1,
    MOST_STAGES = 64,
    ENTRIES = 38016, /* always enough at share 1/4 */
    MOST_NUMBERS = 40,
};

/* The bytes of a file, which every call is given: as a net, or as a block. If they are a net, its stages; and if a desk
 * takes it, a desk with it, stage 0 locked on the last layer. */
struct input {
    const char *name;
    uint8_t bytes[MOST_BYTES];
    size_t len;
    size_t stages;
    struct vorphiel_desk desk;
};

/* What a call may write into, beside its results. */
struct room {
    int64_t table[ENTRIES];
    uint8_t plan[MOST_STAGES];
    struct vorphiel_desk desk;
};

/* What a call gave: its numbers in turn, and what is in the plan buffer and on the desk then. */
struct answer {
    uint64_t numbers[MOST_NUMBERS];
    size_t count;
    uint8_t plan[MOST_STAGES];
    struct vorphiel_desk desk;
};

enum call {
    CHECK,
    JUDGE,
    PLAN,
    PLAN_ROUNDS,
    TABLE_ENTRIES,
    REPORT,
    DESK_SIZE,
    DESK_OPEN,
    DESK_SET,
    DESK_LOCK,
    DESK_UNLOCK,
    DESK_READ,
    VERSION,
    CALLS
};

static const char *const call_names[CALLS] = {"check",       "judge",     "plan",      "plan_rounds", "table_entries",
                                              "report",      "desk_size", "desk_open", "desk_set",    "desk_lock",
                                              "desk_unlock", "desk_read", "version"};

/* Ends the program: it could not be run. */
static inline void give_up(const char *why)
{
    perror(why);
    exit(2);
}

static inline struct input *read_input(const char *name)
{
    struct input *input = calloc(1, sizeof *input);
    FILE *file = fopen(name, "rb");
    if (input == NULL || file == NULL)
        give_up(name);
    input->name = name;
    input->len = fread(input->bytes, 1, MOST_BYTES, file);
    fclose(file);
    uint64_t nodes, stages, layers;
    vorphiel_check(input->bytes, input->len, &nodes, &stages, &layers);
    input->stages = stages;
    vorphiel_desk_open(&input->desk, input->bytes, input->len);
    vorphiel_desk_set(&input->desk, 0, layers - 1);
    vorphiel_desk_lock(&input->desk, 0);
    return input;
}

static inline void put(struct answer *answer, uint64_t number)
{
    answer->numbers[answer->count++] = number;
}

static inline void put_all(struct answer *answer, const uint64_t *numbers, size_t count)
{
    for (size_t i = 0; i < count; i++)
        put(answer, numbers[i]);
}

static inline void put_totals(struct answer *answer, const struct vorphiel_totals *totals)
{
    const uint64_t some[] = {totals->refusal, totals->nets, totals->planned, totals->cost};
    put_all(answer, some, 4);
    put_all(answer, totals->refused, 13);
    put_all(answer, totals->lengths, 16);
}

/* Makes one call for a desk: it gives the size, opens the room's, reads the input's, or changes a copy of that. */
static inline void make_desk_call(enum call call, const struct input *input, struct room *room, struct answer *answer)
{
    struct vorphiel_desk *desk = &room->desk;
    if (call == DESK_OPEN) {
        struct vorphiel_checked counts = vorphiel_desk_open(desk, input->bytes, input->len);
        put_all(answer, (const uint64_t[]){counts.refusal, counts.nodes, counts.stages, counts.layers}, 4);
        return;
    }
    if (call == DESK_READ) {
        struct vorphiel_judged judged = vorphiel_desk_read(&input->desk);
        put_all(answer, (const uint64_t[]){judged.refusal, judged.cost, (uint64_t)judged.slack}, 3);
        return;
    }
    if (call == DESK_SIZE) {
        put(answer, vorphiel_desk_size());
        return;
    }
    *desk = input->desk;
    put(answer, call == DESK_SET    ? vorphiel_desk_set(desk, input->stages - 1, 1)
                : call == DESK_LOCK ? vorphiel_desk_lock(desk, input->stages - 1)
                                    : vorphiel_desk_unlock(desk, 0));
}

/* Makes one call: judging all stages on layer 0, planning with share 1/4, as many of 29 rounds as the table has room
 * for. The room is cleared before it. */
static inline void make_call(enum call call, const struct input *input, struct room *room, struct answer *answer)
{
    const uint8_t *bytes = input->bytes;
    size_t len = input->len;
    uint64_t of[5] = {0};
    int64_t slack = 0;
    memset(answer, 0, sizeof *answer);
    memset(room, 0, sizeof *room);
    switch (call) {
    case CHECK:
        of[0] = vorphiel_check(bytes, len, &of[1], &of[2], &of[3]);
        break;
    case JUDGE:
        of[0] = vorphiel_judge(bytes, len, room->plan, input->stages, &of[1], &slack);
        break;
    case PLAN:
        of[0] = vorphiel_plan(bytes, len, 1, 4, room->table, ENTRIES, room->plan, MOST_STAGES, &of[1], &slack, &of[2],
                              &of[3]);
        break;
    case PLAN_ROUNDS:
        of[0] = vorphiel_plan_rounds(bytes, len, 29, room->table, ENTRIES, room->plan, MOST_STAGES, &of[1], &slack,
                                     &of[2], &of[3]);
        break;
    case TABLE_ENTRIES:
        of[0] = vorphiel_table_entries(input->stages, 4);
        break;
    case REPORT: {
        struct vorphiel_totals totals = vorphiel_report(bytes, len);
        put_totals(answer, &totals);
        break;
    }
    case VERSION:
        of[0] = vorphiel_version();
        break;
    default:
        make_desk_call(call, input, room, answer);
    }
    put_all(answer, of, 5);
    put(answer, (uint64_t)slack);
    memcpy(answer->plan, room->plan, MOST_STAGES);
    answer->desk = room->desk;
}

static inline int same_answer(const struct answer *a, const struct answer *b)
{
    return a->count == b->count && memcmp(a->numbers, b->numbers, sizeof a->numbers) == 0
           && memcmp(a->plan, b->plan, MOST_STAGES) == 0 && memcmp(&a->desk, &b->desk, sizeof a->desk) == 0;
}

#endif
