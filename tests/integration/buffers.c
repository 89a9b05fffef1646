/* What may be lent to a call: bytes at any address, nothing at all, the same bytes twice where they are only read,
 * desks wherever their alignment allows, moved and copied, and lengths and numbers that 32 bits do not hold.
 *
 *     buffers NET
 *
 * NET is net B of the scope document. Status 0: every answer is as the header says. */
#define _DEFAULT_SOURCE
#include "calls.h"

#include <sys/mman.h>

enum { STAGES = 2, FEW = 200, HEAD = 3 };

static struct input *net;
static int64_t table[FEW];
static int faults;

static void expect(int holds, const char *what)
{
    if (!holds) {
        printf("buffers: not so: %s\n", what);
        faults++;
    }
}

/* ---- Each call on what is lent, and whether it gave this refusal number and this cost ---- */

static int judges(const uint8_t *bytes, size_t len, const uint8_t *plan, size_t plan_len, int refusal, uint64_t due)
{
    uint64_t cost = 99;
    int64_t slack = 99;
    int found = vorphiel_judge(bytes, len, plan, plan_len, &cost, &slack);
    return found == refusal && cost == due && slack == 0;
}

static int checks(const uint8_t *bytes, size_t len, int refusal, uint64_t due)
{
    uint64_t nodes = 99, stages = 99, layers = 99;
    int found = vorphiel_check(bytes, len, &nodes, &stages, &layers);
    return found == refusal && stages == due;
}

static int plans(const uint8_t *bytes, size_t len, int64_t *lent, size_t entries, uint8_t *plan, size_t plan_len,
                 int refusal, uint64_t due)
{
    uint64_t cost = 99, k = 99, floor = 99;
    int64_t slack = 99;
    int found = vorphiel_plan(bytes, len, 0, 1, lent, entries, plan, plan_len, &cost, &slack, &k, &floor);
    return found == refusal && cost == due && floor == due && slack == 0 && k == 0;
}

static int plans_rounds(const uint8_t *bytes, size_t len, int64_t *lent, size_t entries, uint8_t *plan,
                        size_t plan_len, int refusal, uint64_t due)
{
    uint64_t cost = 99, floor = 99, rounds = 99;
    int64_t slack = 99;
    int found =
        vorphiel_plan_rounds(bytes, len, 29, lent, entries, plan, plan_len, &cost, &slack, &floor, &rounds);
    return found == refusal && cost == due && floor == due && slack == 0 && rounds == (refusal == 0 ? 29 : 0);
}

static int reports(const uint8_t *block, size_t len, int refusal, uint64_t nets, uint64_t due)
{
    struct vorphiel_totals totals = vorphiel_report(block, len);
    return totals.refusal == refusal && totals.nets == nets && totals.planned == nets && totals.cost == due;
}

static int opens(struct vorphiel_desk *desk, const uint8_t *bytes, size_t len, int refusal, uint64_t due)
{
    struct vorphiel_checked counts = vorphiel_desk_open(desk, bytes, len);
    return counts.refusal == refusal && counts.stages == due && counts.layers == due;
}

static int reads(const struct vorphiel_desk *desk, int refusal, uint64_t due)
{
    struct vorphiel_judged judged = vorphiel_desk_read(desk);
    return judged.refusal == refusal && judged.cost == due;
}

/* ---- Bytes at any address ---- */

/* Makes a block of the net. Gives its length. */
static size_t block_into(uint8_t *block)
{
    block[0] = 6;
    block[1] = (uint8_t)(net->len >> 8);
    block[2] = (uint8_t)net->len;
    memcpy(block + HEAD, net->bytes, net->len);
    return HEAD + net->len;
}

static void any_address(void)
{
    static uint8_t bytes[8 + HEAD + MOST_BYTES], plan[8 + STAGES], judged[8 + STAGES];
    for (size_t at = 0; at < 8; at++) {
        uint8_t *block = bytes + at, *own = block + HEAD;
        size_t len = block_into(block);
        judged[at] = 0;
        judged[at + 1] = 1;
        expect(checks(own, net->len, 0, STAGES), "a net is read at every address");
        expect(judges(own, net->len, judged + at, STAGES, 0, 35), "a plan is judged at every address");
        expect(plans(own, net->len, table, FEW, plan + 7 - at, STAGES, 0, 32), "a plan goes to every address");
        expect(plan[7 - at] == 1 && plan[8 - at] == 0, "it is the plan 1 0");
        expect(plans_rounds(own, net->len, table, FEW, plan + at, STAGES, 0, 32), "by rounds too");
        expect(plan[at] == 1 && plan[at + 1] == 0, "it is the plan 1 0 by rounds too");
        expect(reports(block, len, 0, 1, 35), "a block is read at every address");
        struct vorphiel_desk desk = {0};
        expect(opens(&desk, own, net->len, 0, STAGES) && reads(&desk, 0, 22), "a net is opened at every address");
    }
}

/* ---- Nothing ---- */

/* Bytes and entries of length 0 at these addresses. */
static void nothing_at(uint8_t *bytes, int64_t *entries)
{
    uint8_t plan[STAGES] = {77, 77}, *own = net->bytes;
    size_t len = net->len;
    expect(checks(bytes, 0, 1, 0), "no net is refused with 1");
    expect(judges(bytes, 0, bytes, 0, 1, 0), "judging no net is refused with 1");
    expect(judges(own, len, bytes, 0, 7, 0), "judging no plan is refused with 7");
    expect(plans(bytes, 0, entries, 0, bytes, 0, 1, 0), "planning no net is refused with 1");
    expect(plans(own, len, entries, 0, bytes, 0, 10, 0), "no plan buffer is refused with 10");
    expect(plans(own, len, entries, 0, plan, STAGES, 12, 0), "no table is refused with 12");
    expect(plans_rounds(bytes, 0, entries, 0, bytes, 0, 1, 0), "no net is refused with 1, by rounds");
    expect(plans_rounds(own, len, entries, 0, bytes, 0, 10, 0), "no plan buffer is refused with 10, by rounds");
    expect(plans_rounds(own, len, entries, 0, plan, STAGES, 12, 0), "no table is refused with 12, by rounds");
    expect(plan[0] == 77 && plan[1] == 77, "a refusal leaves the plan buffer");
    expect(reports(bytes, 0, 0, 0, 0), "no bytes are a block of no nets");
    struct vorphiel_desk desk = {0};
    expect(opens(&desk, bytes, 0, 1, 0) && reads(&desk, 16, 0), "opening no net is refused with 1, and nothing opened");
}

static void nothing(void)
{
    void *barred = mmap(NULL, 4096, PROT_NONE, MAP_PRIVATE | MAP_ANONYMOUS, -1, 0);
    if (barred == MAP_FAILED)
        give_up("buffers: a page");
    nothing_at(NULL, NULL);
    nothing_at(net->bytes + net->len, table + FEW);
    nothing_at(barred, barred);
    munmap(barred, 4096);
}

/* ---- The same bytes twice ---- */

/* Judged are plans that stand in the net's own bytes: wherever two bytes of it are 0 and 1, they are a plan of cost 35;
 * and the whole net as a plan is too long. */
static void read_twice(void)
{
    int met = 0;
    for (size_t i = 0; i + 1 < net->len; i++)
        if (net->bytes[i] == 0 && net->bytes[i + 1] == 1) {
            met = 1;
            expect(judges(net->bytes, net->len, net->bytes + i, STAGES, 0, 35), "a plan may stand in the net");
        }
    expect(met, "the net has the bytes 0 and 1");
    expect(judges(net->bytes, net->len, net->bytes, net->len, 7, 0), "net and plan may be the same bytes");
}

/* ---- Desks ---- */

enum { WAY = 8 * VORPHIEL_DESK_ALIGNMENT, MARK = 0xA5 };

/* Whether so many bytes are all marks. */
static int marks(const uint8_t *bytes, size_t len)
{
    for (size_t i = 0; i < len; i++)
        if (bytes[i] != MARK)
            return 0;
    return 1;
}

/* A desk that is moved from one address to the next, all that its alignment allows: it goes on as before, what stands
 * beside it stays, and it can be opened anew at each. */
static void moved_desk(void)
{
    static _Alignas(WAY) uint8_t bytes[WAY + sizeof(struct vorphiel_desk) + WAY];
    struct vorphiel_desk desk = {0};
    uint64_t layer = 0, cost = 22;
    expect(opens(&desk, net->bytes, net->len, 0, STAGES) && vorphiel_desk_lock(&desk, 0) == 0, "a desk is opened");
    for (size_t at = 0; at <= WAY; at += VORPHIEL_DESK_ALIGNMENT) {
        struct vorphiel_desk *moved = (struct vorphiel_desk *)(void *)(bytes + at);
        memset(bytes, MARK, sizeof bytes);
        memcpy(bytes + at, &desk, sizeof desk);
        expect(reads(moved, 0, cost) && vorphiel_desk_set(moved, 0, 1) == 17, "plan and locks are moved with a desk");
        layer = 1 - layer;
        cost = layer == 1 ? 35 : 22;
        expect(vorphiel_desk_set(moved, 1, layer) == 0 && reads(moved, 0, cost), "a stage is set there");
        expect(vorphiel_desk_lock(moved, 1) == 0 && vorphiel_desk_set(moved, 1, layer) == 17, "it is locked there");
        expect(vorphiel_desk_unlock(moved, 1) == 0, "it is unlocked there");
        memcpy(&desk, bytes + at, sizeof desk);
        expect(opens(moved, net->bytes, net->len, 0, STAGES) && reads(moved, 0, 22), "a desk is opened anew there");
        expect(vorphiel_desk_set(moved, 0, 1) == 0, "then nothing is locked");
        expect(marks(bytes, at) && marks(bytes + at + sizeof desk, 2 * WAY - at), "what is beside a desk stays");
    }
}

/* An earlier copy is a desk by itself, and is put back. */
static void earlier_desk(void)
{
    struct vorphiel_desk desk = {0}, earlier = desk;
    opens(&desk, net->bytes, net->len, 0, STAGES);
    expect(reads(&earlier, 16, 0), "the copy of a desk never opened was never opened");
    vorphiel_desk_set(&desk, 1, 1);
    earlier = desk;
    expect(vorphiel_desk_set(&desk, 0, 1) == 0 && vorphiel_desk_lock(&desk, 1) == 0, "a desk goes on beside its copy");
    expect(reads(&desk, 0, 45) && reads(&earlier, 0, 35), "each has its plan");
    expect(vorphiel_desk_set(&desk, 1, 0) == 17 && vorphiel_desk_set(&earlier, 1, 0) == 0, "each has its locks");
    desk = earlier;
    expect(vorphiel_desk_set(&desk, 1, 1) == 0 && reads(&desk, 0, 35), "a copy that was put back goes on as before");
    expect(reads(&earlier, 0, 22), "and the copy stays");
}

/* Stage and layer numbers that cut to 8 or 32 bits would be in range. */
static void far_numbers(void)
{
    const uint64_t fars[] = {(uint64_t)1 << 8, (uint64_t)1 << 32, (uint64_t)1 << 63};
    struct vorphiel_desk desk = {0};
    opens(&desk, net->bytes, net->len, 0, STAGES);
    struct vorphiel_desk before = desk;
    for (size_t i = 0; i < 3; i++) {
        expect(vorphiel_desk_set(&desk, fars[i], 1) == 7 && vorphiel_desk_set(&desk, 1, fars[i]) == 8, "far numbers");
        expect(vorphiel_desk_lock(&desk, fars[i]) == 7 && vorphiel_desk_unlock(&desk, fars[i]) == 7, "far stages");
    }
    expect(memcmp(&desk, &before, sizeof desk) == 0, "a refused call keeps the desk");
}

/* ---- Lengths ---- */

/* A table is counted in entries: 132 of them are just enough for net B at share 0. */
static void counted_in_entries(void)
{
    uint8_t plan[STAGES];
    table[132] = 77;
    expect(plans(net->bytes, net->len, table, 131, plan, STAGES, 12, 0), "131 entries are too few");
    expect(plans(net->bytes, net->len, table, 132, plan, STAGES, 0, 32), "132 entries are enough");
    expect(table[131] == 0 && table[132] == 77, "the table is cleared up to its end");
}

/* Lengths that 32 bits do not hold: a plan buffer, a plan, a net and a block that zeros follow. Cut to 32 bits each of
 * them would be answered otherwise. */
static void beyond_32_bits(void)
{
    size_t far = (size_t)1 << 32, most = far + MOST_BYTES;
    int flags = MAP_PRIVATE | MAP_ANONYMOUS | MAP_NORESERVE;
    uint8_t *bytes = mmap(NULL, most, PROT_READ | PROT_WRITE, flags, -1, 0);
    if (bytes == MAP_FAILED)
        give_up("buffers: 4 GiB of addresses");
    expect(plans(net->bytes, net->len, table, FEW, bytes, far, 0, 32), "a long plan buffer");
    expect(bytes[0] == 1 && bytes[1] == 0 && bytes[2] == 0, "the plan opens it");
    bytes[STAGES] = 255; /* no layer, so that judging does not read on */
    expect(judges(net->bytes, net->len, bytes, far + STAGES, 7, 0), "a long plan is refused with 7");
    memcpy(bytes, net->bytes, net->len);
    expect(checks(bytes, far + net->len, 2, 0), "zeros behind a net are refused with 2");
    struct vorphiel_desk desk = {0};
    expect(opens(&desk, bytes, far + net->len, 15, 0) && reads(&desk, 16, 0), "a long net is refused with 15");
    expect(reports(bytes, far + block_into(bytes), 13, 0, 0), "zeros behind a block are refused with 13");
    munmap(bytes, most);
}

int main(int count, char **arguments)
{
    if (count != 2)
        return 2;
    net = read_input(arguments[1]);
    any_address();
    nothing();
    read_twice();
    moved_desk();
    earlier_desk();
    far_numbers();
    counted_in_entries();
    beyond_32_bits();
    free(net);
    return faults == 0 ? 0 : 1;
}
