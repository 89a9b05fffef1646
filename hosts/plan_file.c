/* A host in C: plans the net that a file holds, with a share or by rounds. HELP below says how it is used, what it
 * prints and its exit statuses. Unlike the program plan_net, which has one fixed table, it lends a table that is long
 * enough.
 *
 * Build: cc -std=c11 -Wall -Wextra -Werror -I include hosts/plan_file.c target/staticlib/libvorphiel.a -o plan_file */
#define HOST "plan_file"
#include "host.h"

static const char HELP[] =
    "usage: plan_file NET [SHARE]\n"
    "       plan_file --rounds R NET\n"
    "       plan_file --help | --version\n"
    "\n"
    "Plans the net in the file NET: a layer for each stage, so that every sink is reached in time at little cost. A net\n"
    "is bytes; nets/hex.py makes them of text. NET may be - for standard input; a file -NAME is given as ./-NAME.\n"
    "\n"
    "  SHARE       P/Q or P Q, with P from 0 to 1,000 and Q from 1 to 1,000: the plan costs at most P/Q more than the\n"
    "              cheapest. 1/4 if none is given; 0/1 asks for the cheapest plan\n"
    "  --rounds R  in the place of a share: the cheapest plan that R rounds find, R from 1 to 29\n"
    "  --help      prints this\n"
    "  --version   prints the version of the library\n"
    "\n"
    "Printed are, with a share, the plan (the layer of each stage) and a floor under the cost of every plan:\n"
    "\n"
    "  cost 35 grain 4 slack 0 plan 0 1\n"
    "  floor 32: no plan that meets timing costs less\n"
    "\n"
    "with rounds one line, which says fewer than R where the longest table lent is too short for all of them:\n"
    "\n"
    "  cost 32 slack 0 floor 32 rounds 29 plan 1 0\n"
    "\n"
    "and for a refusal its number, with what that means on standard error:\n"
    "\n"
    "  refused 11\n"
    "\n"
    "Exit status: 0 planned; 1 refused; 2 not tried: wrong use, a file that cannot be read, output that cannot be\n"
    "written, no memory, or a share of 0 that may take a table of more than 512 MiB.\n";

enum { MOST_STAGES = 64, MOST_SHARE = 1000, MOST_ROUNDS = 29 };

/* The columns of a small table, for the first call with rounds. */
enum { FEW_COLUMNS = 64 };

/* The longest table lent for share 0 or for rounds: 512 MiB, about eight times what any share above 0 can need
 * (64 stages, share 1/1,000: 8,452,224 entries). */
static const uint64_t MOST_ENTRIES = (uint64_t)1 << 26;

/* What is asked for: r rounds, or else the share p/q. */
struct asked {
    const char *file;
    int by_rounds;
    uint64_t r, p, q;
};

/* The share if none is given, with which share 0 begins too. */
static const struct asked QUARTER = {.p = 1, .q = 4};

/* What vorphiel_plan answers, or vorphiel_plan_rounds: the former has k, the latter rounds. */
struct planned {
    uint8_t refusal;
    uint8_t plan[MOST_STAGES];
    uint64_t cost, k, floor, rounds;
    int64_t slack;
};

/* Whether one argument is a share such as 1/4, or two are. */
static int is_share(const char *first, const char *second, struct asked *asked)
{
    if (second != NULL)
        return is_number(first, &asked->p) && is_number(second, &asked->q);
    const char *rest = after_number(first, &asked->p);
    return rest != NULL && *rest == '/' && is_number(rest + 1, &asked->q);
}

/* Says that an argument is not what is due there, or that two are not; the second is NULL if there is one only. */
static int wrong_argument(const char *first, const char *second, const char *words)
{
    fprintf(stderr, HOST ": %s%s%s: %s\n", first, second != NULL ? " " : "", second != NULL ? second : "", words);
    return NOT_TRIED;
}

/* Reads what is given beside the options: the file, and perhaps a share. */
static int read_given(const struct given *given, struct asked *asked)
{
    const char *first = given->at[1], *second = given->at[2];
    asked->file = given->at[0];
    if (asked->file == NULL)
        return no_file();
    if (first == NULL)
        return 0;
    if (asked->by_rounds)
        return wrong_argument(first, second, "no share is taken with --rounds");
    if (!is_share(first, second, asked))
        return wrong_argument(first, second, "no share; one is written after the file, as 1/4 or as two numbers, 1 4");
    return 0;
}

static int read_arguments(int count, char **arguments, struct asked *asked)
{
    struct given given = {0};
    int fault = 0;
    for (int i = 1; i < count && fault == 0; i++) {
        if (strcmp(arguments[i], "--rounds") != 0) {
            fault = take(arguments[i], MOST_GIVEN, &given);
        } else {
            i++; /* After the last argument stands NULL. */
            asked->by_rounds = 1;
            if (!is_number(arguments[i], &asked->r))
                fault = wrong_argument("--rounds", arguments[i], "a number from 1 to 29 is due, and then the file");
        }
    }
    return fault == 0 ? read_given(&given, asked) : fault;
}

/* Whether p and q are within their ranges. */
static int is_in_range(const struct asked *share)
{
    return share->p <= MOST_SHARE && share->q >= 1 && share->q <= MOST_SHARE;
}

/* A table length that is never too short for a net of s stages and a share above 0: the chart's number for the shares
 * 1/1 to 1/10, the header's rule for the others. A share that is out of range is refused before the table is looked
 * at, so any length will do; that test stands first, so that nothing is divided by 0 and no product is too large. */
static uint64_t enough_entries(uint64_t s, const struct asked *share)
{
    if (!is_in_range(share) || share->p == 0)
        return 1;
    uint64_t charted = share->p == 1 ? vorphiel_table_entries(s, share->q) : 0;
    return charted > 0 ? charted : (s + (2 * share->q * s + share->p - 1) / share->p) * (s + 2);
}

/* A table length that is never too short, at share 0 as at any other, once a plan of this cost is known that meets
 * timing: at share 0 the search needs a column for each cost up to the cheapest plan's, which is no dearer. No plan
 * costs more than 255,000,000. */
static uint64_t enough_by_cost(uint64_t s, uint64_t cost)
{
    return (cost + 1) * (s + 2);
}

/* The room that a table takes, rounded up. */
static uint64_t mebibytes(uint64_t entries)
{
    return (entries * sizeof(int64_t) + ((uint64_t)1 << 20) - 1) >> 20;
}

/* One call with a table of this many entries. What it holds beforehand does not matter, so it is not cleared. */
static int plan_with(const struct input *net, const struct asked *asked, uint64_t entries, struct planned *answer)
{
    int64_t *table = malloc(entries * sizeof *table);
    if (table == NULL) {
        fprintf(stderr, HOST ": %s: no memory for a table of %" PRIu64 " entries (%" PRIu64 " MiB)\n", net->name, entries,
                mebibytes(entries));
        return NOT_TRIED;
    }
    if (asked->by_rounds)
        answer->refusal = vorphiel_plan_rounds(net->at, net->len, asked->r, table, entries, answer->plan, MOST_STAGES,
                                               &answer->cost, &answer->slack, &answer->floor, &answer->rounds);
    else
        answer->refusal = vorphiel_plan(net->at, net->len, asked->p, asked->q, table, entries, answer->plan, MOST_STAGES,
                                        &answer->cost, &answer->slack, &answer->k, &answer->floor);
    free(table);
    return 0;
}

/* Says that share 0 may take too long a table, when the plan at share 1/4 has this cost. */
static int too_long(const struct input *net, uint64_t entries, uint64_t cost)
{
    fprintf(stderr,
            HOST ": %s: share 0 may take a table of %" PRIu64 " entries (%" PRIu64 " MiB); this host lends %" PRIu64 " (%" PRIu64 " MiB) at most\n",
            net->name, entries, mebibytes(entries), MOST_ENTRIES, mebibytes(MOST_ENTRIES));
    fprintf(stderr,
            HOST ": at share 1/4 the plan costs %" PRIu64 "; ask for a share such as 1/100, or lend more in a host of your own\n",
            cost);
    return NOT_TRIED;
}

/* Plans a net of s stages with a share. At share 0 the table is sized by the cost of a plan at another share. */
static int plan_by_share(const struct input *net, uint64_t s, const struct asked *share, struct planned *answer)
{
    if (share->p > 0 || !is_in_range(share))
        return plan_with(net, share, enough_entries(s, share), answer);
    int fault = plan_with(net, &QUARTER, enough_entries(s, &QUARTER), answer);
    if (fault != 0 || answer->refusal != 0)
        return fault;
    uint64_t entries = enough_by_cost(s, answer->cost);
    return entries > MOST_ENTRIES ? too_long(net, entries, answer->cost) : plan_with(net, share, entries, answer);
}

/* Plans a net of s stages by rounds. Where a small table ends them early, the second has columns for all of them, if
 * it is not longer than is lent here: by the cost of the first plan in grains of the last round. */
static int plan_by_rounds(const struct input *net, uint64_t s, const struct asked *asked, struct planned *answer)
{
    int fault = plan_with(net, asked, FEW_COLUMNS * (s + 2), answer);
    if (fault != 0 || answer->refusal != 0 || answer->rounds == asked->r)
        return fault;
    uint64_t entries = enough_by_cost(s, answer->cost >> (MOST_ROUNDS - asked->r));
    return plan_with(net, asked, entries < MOST_ENTRIES ? entries : MOST_ENTRIES, answer);
}

static void print_refusal(const struct input *net, const struct asked *asked, uint8_t refusal)
{
    printf("refused %d\n", refusal);
    if (refusal <= 6)
        say_no_net(net, refusal);
    else if (refusal == 9)
        fprintf(stderr, HOST ": %" PRIu64 "/%" PRIu64 ": %s\n", asked->p, asked->q, refusal_words(refusal));
    else if (refusal == 14)
        fprintf(stderr, HOST ": --rounds %" PRIu64 ": %s\n", asked->r, refusal_words(refusal));
    else
        say(net->name, refusal_words(refusal));
}

/* The line for a plan; after planning with a share also that of the floor. */
static void print_plan(const struct planned *answer, uint64_t s, int by_rounds)
{
    if (by_rounds)
        printf("cost %" PRIu64 " slack %" PRId64 " floor %" PRIu64 " rounds %" PRIu64 " plan", answer->cost, answer->slack,
               answer->floor, answer->rounds);
    else
        printf("cost %" PRIu64 " grain %" PRIu64 " slack %" PRId64 " plan", answer->cost, (uint64_t)1 << answer->k,
               answer->slack);
    for (uint64_t stage = 0; stage < s; stage++)
        printf(" %d", answer->plan[stage]);
    printf("\n");
    if (!by_rounds)
        printf("floor %" PRIu64 ": no plan that meets timing costs less\n", answer->floor);
}

/* Checks the net for its number of stages, plans it, and prints what came of it. */
static int plan_and_print(const struct input *net, const struct asked *asked)
{
    uint64_t nodes, stages, layers;
    struct planned answer = {0};
    int fault = 0;
    answer.refusal = vorphiel_check(net->at, net->len, &nodes, &stages, &layers);
    if (answer.refusal == 0)
        fault = (asked->by_rounds ? plan_by_rounds : plan_by_share)(net, stages, asked, &answer);
    if (fault != 0)
        return fault;
    if (answer.refusal == 0)
        print_plan(&answer, stages, asked->by_rounds);
    else
        print_refusal(net, asked, answer.refusal);
    return written(answer.refusal == 0 ? DONE : REFUSED);
}

int main(int count, char **arguments)
{
    static struct input net;
    struct asked asked = QUARTER;
    if (!is_one_version())
        return NOT_TRIED;
    if (is_answered(count, arguments, HELP))
        return written(DONE);
    int fault = read_arguments(count, arguments, &asked);
    if (fault == 0)
        fault = read_input(asked.file, &net);
    return fault == 0 ? plan_and_print(&net, &asked) : fault;
}
