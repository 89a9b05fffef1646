/* A host in C that makes every call once on net B: what it prints is host.text, and the version that is linked.
 *
 *     host NET */
#include "vorphiel.h"

#include <inttypes.h>
#include <stdio.h>

enum { HEAD = 3, MOST_NET = 1000, STAGES = 2, ENTRIES = 200 };

static int64_t table[ENTRIES];
static uint8_t plan[STAGES];

/* A desk has the size and the alignment that the header says: where not, an array of -1 bytes does not compile. */
struct beside {
    char before;
    struct vorphiel_desk desk;
};
typedef char of_the_size[sizeof(struct vorphiel_desk) == VORPHIEL_DESK_SIZE ? 1 : -1];
typedef char of_the_alignment[offsetof(struct beside, desk) == VORPHIEL_DESK_ALIGNMENT ? 1 : -1];

static void check(const uint8_t *net, size_t len)
{
    uint64_t nodes, stages, layers;
    int refusal = vorphiel_check(net, len, &nodes, &stages, &layers);
    printf("check %d nodes %" PRIu64 " stages %" PRIu64 " layers %" PRIu64 "\n", refusal, nodes, stages, layers);
}

static void judge(const uint8_t *net, size_t len)
{
    const uint8_t judged[STAGES] = {0, 1};
    uint64_t cost;
    int64_t slack;
    int refusal = vorphiel_judge(net, len, judged, STAGES, &cost, &slack);
    printf("judge %d cost %" PRIu64 " slack %" PRId64 "\n", refusal, cost, slack);
}

static void plan_share(const uint8_t *net, size_t len)
{
    uint64_t cost, k, floor;
    int64_t slack;
    int refusal = vorphiel_plan(net, len, 1, 4, table, ENTRIES, plan, STAGES, &cost, &slack, &k, &floor);
    printf("plan %d cost %" PRIu64 " slack %" PRId64 " k %" PRIu64 " floor %" PRIu64 " plan %d %d\n", refusal, cost,
           slack, k, floor, plan[0], plan[1]);
}

static void plan_rounds(const uint8_t *net, size_t len)
{
    uint64_t cost, floor, rounds;
    int64_t slack;
    int refusal = vorphiel_plan_rounds(net, len, 29, table, ENTRIES, plan, STAGES, &cost, &slack, &floor, &rounds);
    printf("plan_rounds %d cost %" PRIu64 " slack %" PRId64 " floor %" PRIu64 " rounds %" PRIu64 " plan %d %d\n",
           refusal, cost, slack, floor, rounds, plan[0], plan[1]);
}

static void report(const uint8_t *block, size_t len)
{
    struct vorphiel_totals totals = vorphiel_report(block, len);
    printf("report %d nets %" PRIu64 " planned %" PRIu64 " cost %" PRIu64 " lengths %" PRIu64 " %" PRIu64 "\n",
           totals.refusal, totals.nets, totals.planned, totals.cost, totals.lengths[0], totals.lengths[1]);
}

static void show(const char *call, int refusal, const struct vorphiel_desk *desk)
{
    printf("desk_%s %d plan %d %d locks %d %d\n", call, refusal, desk->plan[0], desk->plan[1], desk->locks[0],
           desk->locks[1]);
}

static void work_at_desk(const uint8_t *net, size_t len)
{
    static struct vorphiel_desk desk;
    struct vorphiel_checked opened = vorphiel_desk_open(&desk, net, len);
    printf("desk_open %d nodes %" PRIu64 " stages %" PRIu64 " layers %" PRIu64 "\n", opened.refusal, opened.nodes,
           opened.stages, opened.layers);
    show("set", vorphiel_desk_set(&desk, 1, 1), &desk);
    show("lock", vorphiel_desk_lock(&desk, 1), &desk);
    show("set", vorphiel_desk_set(&desk, 1, 0), &desk);
    show("unlock", vorphiel_desk_unlock(&desk, 1), &desk);
    struct vorphiel_judged judged = vorphiel_desk_read(&desk);
    printf("desk_read %d cost %" PRIu64 " slack %" PRId64 "\n", judged.refusal, judged.cost, judged.slack);
}

int main(int count, char **arguments)
{
    static uint8_t block[HEAD + MOST_NET];
    FILE *file = count == 2 ? fopen(arguments[1], "rb") : NULL;
    if (file == NULL)
        return 2;
    size_t len = fread(block + HEAD, 1, MOST_NET, file);
    fclose(file);
    block[0] = 6;
    block[1] = (uint8_t)(len >> 8);
    block[2] = (uint8_t)len;
    check(block + HEAD, len);
    judge(block + HEAD, len);
    plan_share(block + HEAD, len);
    plan_rounds(block + HEAD, len);
    printf("table_entries %" PRIu64 "\n", vorphiel_table_entries(STAGES, 4));
    report(block, HEAD + len);
    printf("desk_size %" PRIu64 "\n", vorphiel_desk_size());
    work_at_desk(block + HEAD, len);
    printf("version %" PRIu64 "\n", vorphiel_version());
    return vorphiel_version() == VORPHIEL_VERSION && vorphiel_desk_size() == VORPHIEL_DESK_SIZE ? 0 : 1;
}
