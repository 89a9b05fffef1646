// A host in C++ that makes every call once on net B: what it prints is host.text, and the version that is linked.
//
//     host NET
#include "vorphiel.h"

#include <fstream>
#include <iostream>
#include <iterator>
#include <vector>

using Bytes = std::vector<uint8_t>;

static std::vector<int64_t> table(200);

static_assert(sizeof(vorphiel_desk) == VORPHIEL_DESK_SIZE, "a desk has the size that the header says");
static_assert(alignof(vorphiel_desk) == VORPHIEL_DESK_ALIGNMENT, "a desk has the alignment that the header says");

static void check(const Bytes &net)
{
    uint64_t nodes, stages, layers;
    int refusal = vorphiel_check(net.data(), net.size(), &nodes, &stages, &layers);
    std::cout << "check " << refusal << " nodes " << nodes << " stages " << stages << " layers " << layers << "\n";
}

static void judge(const Bytes &net)
{
    const Bytes plan{0, 1};
    uint64_t cost;
    int64_t slack;
    int refusal = vorphiel_judge(net.data(), net.size(), plan.data(), plan.size(), &cost, &slack);
    std::cout << "judge " << refusal << " cost " << cost << " slack " << slack << "\n";
}

static void print_plan(const Bytes &plan)
{
    std::cout << " plan";
    for (int layer : plan)
        std::cout << " " << layer;
    std::cout << "\n";
}

static void plan_share(const Bytes &net)
{
    Bytes plan(2);
    uint64_t cost, k, floor;
    int64_t slack;
    int refusal = vorphiel_plan(net.data(), net.size(), 1, 4, table.data(), table.size(), plan.data(), plan.size(),
                                &cost, &slack, &k, &floor);
    std::cout << "plan " << refusal << " cost " << cost << " slack " << slack << " k " << k << " floor " << floor;
    print_plan(plan);
}

static void plan_rounds(const Bytes &net)
{
    Bytes plan(2);
    uint64_t cost, floor, rounds;
    int64_t slack;
    int refusal = vorphiel_plan_rounds(net.data(), net.size(), 29, table.data(), table.size(), plan.data(),
                                       plan.size(), &cost, &slack, &floor, &rounds);
    std::cout << "plan_rounds " << refusal << " cost " << cost << " slack " << slack << " floor " << floor
              << " rounds " << rounds;
    print_plan(plan);
}

static void report(const Bytes &net)
{
    Bytes block{6, static_cast<uint8_t>(net.size() >> 8), static_cast<uint8_t>(net.size())};
    block.insert(block.end(), net.begin(), net.end());
    vorphiel_totals totals = vorphiel_report(block.data(), block.size());
    std::cout << "report " << int(totals.refusal) << " nets " << totals.nets << " planned " << totals.planned
              << " cost " << totals.cost << " lengths " << totals.lengths[0] << " " << totals.lengths[1] << "\n";
}

static void show(const char *call, int refusal, const vorphiel_desk &desk)
{
    std::cout << "desk_" << call << " " << refusal << " plan " << int(desk.plan[0]) << " " << int(desk.plan[1])
              << " locks " << int(desk.locks[0]) << " " << int(desk.locks[1]) << "\n";
}

static void work_at_desk(const Bytes &net)
{
    vorphiel_desk desk{};
    vorphiel_checked opened = vorphiel_desk_open(&desk, net.data(), net.size());
    std::cout << "desk_open " << int(opened.refusal) << " nodes " << opened.nodes << " stages " << opened.stages
              << " layers " << opened.layers << "\n";
    show("set", vorphiel_desk_set(&desk, 1, 1), desk);
    show("lock", vorphiel_desk_lock(&desk, 1), desk);
    show("set", vorphiel_desk_set(&desk, 1, 0), desk);
    show("unlock", vorphiel_desk_unlock(&desk, 1), desk);
    vorphiel_judged judged = vorphiel_desk_read(&desk);
    std::cout << "desk_read " << int(judged.refusal) << " cost " << judged.cost << " slack " << judged.slack << "\n";
}

int main(int count, char **arguments)
{
    if (count != 2)
        return 2;
    std::ifstream file(arguments[1], std::ios::binary);
    const Bytes net{std::istreambuf_iterator<char>(file), std::istreambuf_iterator<char>()};
    check(net);
    judge(net);
    plan_share(net);
    plan_rounds(net);
    std::cout << "table_entries " << vorphiel_table_entries(2, 4) << "\n";
    report(net);
    std::cout << "desk_size " << vorphiel_desk_size() << "\n";
    work_at_desk(net);
    std::cout << "version " << vorphiel_version() << "\n";
    return vorphiel_version() == VORPHIEL_VERSION && vorphiel_desk_size() == VORPHIEL_DESK_SIZE ? 0 : 1;
}
