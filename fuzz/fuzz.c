/* A fuzz run over the open calls of the library, through the C interface.
 *
 *     fuzz SEED SECONDS NET...
 *
 * Random nets are made from the nets in the files, from nets grown here, and from rubbish; vorphiel_check, vorphiel_judge, vorphiel_plan and
 * vorphiel_plan_rounds are called on them with random plans, shares, rounds, tables and plan buffers, vorphiel_report on blocks of them, whole and damaged, and
 * vorphiel_table_entries with random numbers. A net without vias is tried in both editions, and via resistances are raised. Runs of the desk's calls are made
 * beside a list of layers and locks, and on desks over which something else was written. After each call it is seen whether what the header promises came true.
 * There is no second planner here: the calls are held against each other and against the header (the comparison with a plain search is in tests/).
 *
 * The library is a finished archive that no sanitizer has seen. So every buffer is lent flush with the start or the end of its pages, with pages that may not
 * be touched before and behind, and what is only to be read stands in pages that cannot be written: a stray read or write ends in a signal.
 *
 * The first fault ends the run with status 1 and says on standard output what was wrong: a net or block in hexadecimal with comments, as in nets/. The same
 * seed and files give the same calls, however many seconds are given; after the last second a summary is printed, and the status is 0. Wrong use: status 2. */
#define _DEFAULT_SOURCE
#include "vorphiel.h"

#include <ctype.h>
#include <errno.h>
#include <inttypes.h>
#include <signal.h>
#include <stdio.h>
#include <stdlib.h>
#include <string.h>
#include <sys/mman.h>
#include <sys/time.h>
#include <unistd.h>

enum {
    MOST_BLOCK = 64 * 1024,  /* bytes of a block that is read */
    MOST_TRIED = MOST_BLOCK + 64, /* bytes of a block tried here */
    MOST_NET = MOST_BLOCK,   /* bytes of a net tried here; the longest that can be accepted has 20,515 */
    MOST_FIELDS = 600,       /* fields that are told apart in a net */
    MOST_PLACES = 64,        /* numbers in a field */
    MOST_TABLE = 48 * 1024,  /* entries of a table: more than enough for 64 stages at share 1/4 */
    MOST_PLAN = 300,         /* bytes of a plan or plan buffer */
    MOST_STAGES = 64,
    CHART_SHARES = 10,       /* the last share of the wall chart is 1/10 */
    MOST_LAYERS = 16,
    MOST_NODES = 256,        /* the driver included */
    MOST_SHARE = 1000,
    MOST_K = 28,
    MOST_ROUNDS = MOST_K + 1,
    MOST_DESK_NET = 4096,    /* bytes of a net that a desk takes */
    NUMBERS = 18,            /* 0 and the refusal numbers */
    POOL = 64,               /* nets that are kept to make others from */
    PATIENCE = 10,           /* seconds after which a call is a fault */
};

/* ---- Random numbers (splitmix64) ---- */

static uint64_t random_state;

static uint64_t any(void)
{
    uint64_t z = random_state += 0x9E3779B97F4A7C15;
    z = (z ^ (z >> 30)) * 0xBF58476D1CE4E5B9;
    z = (z ^ (z >> 27)) * 0x94D049BB133111EB;
    return z ^ (z >> 31);
}

/* From 0 to n - 1. */
static size_t below(size_t n)
{
    return any() % n;
}

static int one_in(size_t n)
{
    return below(n) == 0;
}

/* Both ends included. */
static int64_t between(int64_t low, int64_t high)
{
    return (int64_t)((uint64_t)low + any() % ((uint64_t)high - (uint64_t)low + 1));
}

/* ---- Lent buffers ---- */

enum { NET, PLAN, TABLE, BLOCK, DESK, RESULTS, LENT = RESULTS + 4 };

/* Pages with a guard before and behind, and what is lent of them. */
struct lent {
    const char *name;
    uint8_t *pages;
    size_t size;
    uint8_t *at;
    size_t len;
};

static struct lent lent[LENT] = {
    {.name = "net"},      {.name = "plan"},     {.name = "table"},    {.name = "block"},    {.name = "desk"},
    {.name = "result 0"}, {.name = "result 1"}, {.name = "result 2"}, {.name = "result 3"},
};

/* A guard is wide, so that a wild index falls into it too. Within the pages a margin of known bytes stands on the side that has no guard. */
enum { GUARD = 1 << 20, MARGIN = 256, EDGE = 0xA5 };

static void make_lent(struct lent *l, size_t most)
{
    size_t page = (size_t)sysconf(_SC_PAGESIZE);
    l->size = (most + page - 1) / page * page;
    uint8_t *all = mmap(NULL, l->size + 2 * GUARD, PROT_NONE, MAP_PRIVATE | MAP_ANONYMOUS, -1, 0);
    if (all == MAP_FAILED || mprotect(all + GUARD, l->size, PROT_READ | PROT_WRITE) != 0) {
        perror("fuzz: memory");
        exit(2);
    }
    l->pages = all + GUARD;
    memset(l->pages, EDGE, l->size);
}

static void make_all_lent(void)
{
    make_lent(&lent[NET], MOST_NET);
    make_lent(&lent[PLAN], MOST_PLAN);
    make_lent(&lent[TABLE], MOST_TABLE * sizeof(int64_t));
    make_lent(&lent[BLOCK], MOST_TRIED);
    /* A desk has 4,248 bytes, 8 more than a multiple of 16: flush with the end of its pages, its address is a multiple
     * of 8 and not of 16, and the header asks for no more. */
    make_lent(&lent[DESK], sizeof(struct vorphiel_desk));
    for (int i = RESULTS; i < LENT; i++)
        make_lent(&lent[i], sizeof(uint64_t));
}

static size_t margin(size_t room)
{
    return room < MARGIN ? room : MARGIN;
}

static size_t room_before(const struct lent *l)
{
    return (size_t)(l->at - l->pages);
}

static size_t room_behind(const struct lent *l)
{
    return l->size - l->len - room_before(l);
}

/* Copies some bytes to where they are lent: flush with the first page's start or the last page's end. */
static void lend(struct lent *l, const void *content, size_t len)
{
    l->len = len;
    l->at = one_in(2) ? l->pages : l->pages + l->size - len;
    size_t before = margin(room_before(l));
    memset(l->at - before, EDGE, before);
    memset(l->at + len, EDGE, margin(room_behind(l)));
    memcpy(l->at, content, len);
}

static int all_are(const uint8_t *at, size_t len, uint8_t value)
{
    for (size_t i = 0; i < len; i++)
        if (at[i] != value)
            return 0;
    return 1;
}

/* Whether the margins still hold what they held. */
static int margins_kept(const struct lent *l)
{
    size_t before = margin(room_before(l));
    return all_are(l->at - before, before, EDGE) && all_are(l->at + l->len, margin(room_behind(l)), EDGE);
}

static void protect(struct lent *l, int how)
{
    if (mprotect(l->pages, l->size, how) != 0) {
        perror("fuzz: mprotect");
        exit(2);
    }
}

/* ---- The call under way, and the report of a fault ---- */

/* The first four are on a net and have refusal numbers, the next five are on a desk and have them too; the chart's call
 * has neither, and the report's is on a block. */
enum {
    CHECK, JUDGE, PLANNING, ROUNDS,
    DESK_OPEN, DESK_SET, DESK_LOCK, DESK_UNLOCK, DESK_READ, CALLS,
    TABLE_ENTRIES = CALLS, REPORT,
};

static const char *const CALL_NAMES[] = {
    "vorphiel_check", "vorphiel_judge", "vorphiel_plan", "vorphiel_plan_rounds",
    "vorphiel_desk_open", "vorphiel_desk_set", "vorphiel_desk_lock", "vorphiel_desk_unlock", "vorphiel_desk_read",
    "vorphiel_table_entries", "vorphiel_report",
};

/* What is asked of a call that plans: of PLANNING the share p/q, of ROUNDS the number r. */
struct asked {
    int call;
    uint64_t p, q, r;
    size_t entries, buffer;
};

static struct {
    volatile sig_atomic_t under_way;
    int call;
    uint64_t number; /* of the call, from 1 */
    uint64_t seed;
    int planned;     /* the net was planned, and this was asked: */
    struct asked asked;
    uint64_t chart_s, chart_q; /* what vorphiel_table_entries was asked last */
    uint64_t stage, layer;     /* what a desk's call was asked last */
    int spoilt;                /* not only the calls altered the desk */
} now;

/* The desk before the call under way, which is lent a copy: so it moves from call to call. */
static struct vorphiel_desk desk;

/* Only write is used from here on, for the report may come from within a signal. */
static void say(const char *text)
{
    if (write(STDOUT_FILENO, text, strlen(text)) < 0)
        _exit(1);
}

static void say_number(const char *before, uint64_t number)
{
    char digits[24], *at = digits + sizeof digits - 1;
    *at = '\0';
    do {
        *--at = (char)('0' + number % 10);
        number /= 10;
    } while (number != 0);
    say(before);
    say(at);
}

/* 32 bytes a line, each line after the same words. */
static void say_bytes(const char *before, const void *bytes, size_t len)
{
    static const char HEX[] = "0123456789ABCDEF";
    const uint8_t *at = bytes;
    for (size_t start = 0; start < len; start += 32) {
        char text[66], *to = text;
        for (size_t i = start; i < len && i < start + 32; i++) {
            *to++ = HEX[at[i] >> 4];
            *to++ = HEX[at[i] & 15];
        }
        *to++ = '\n';
        *to = '\0';
        say(before);
        say(text);
    }
}

static void say_lent(const struct lent *l, size_t unit)
{
    say("# lent: ");
    say(l->name);
    say_number(" of length ", l->len / unit);
    say(l->at == l->pages ? ", flush with the start of its pages\n" : ", flush with the end of its pages\n");
}

static void say_asked(void)
{
    if (now.asked.call == ROUNDS) {
        say_number("# rounds: r ", now.asked.r);
    } else {
        say_number("# share: p ", now.asked.p);
        say_number(", q ", now.asked.q);
    }
    say("\n");
}

static int is_of_desk(int call)
{
    return call >= DESK_OPEN && call <= DESK_READ;
}

/* Of a call on a desk also what stood there before it. */
static void say_desk(void)
{
    say_lent(&lent[DESK], 1);
    say_number("# stage ", now.stage);
    say_number(", layer ", now.layer);
    say(now.spoilt ? "; a desk that was written over. Before the call:\n" : "; before the call:\n");
    say_bytes("#   ", &desk, sizeof desk);
}

/* The lent buffers and the numbers of the call; of the last planning too, if what it gave is being looked at. */
static void say_call(void)
{
    if (now.call == TABLE_ENTRIES) {
        say_number("# s ", now.chart_s);
        say_number(", q ", now.chart_q);
        say("\n");
        return;
    }
    if (now.call == REPORT) {
        say_lent(&lent[BLOCK], 1);
        return;
    }
    say_lent(&lent[NET], 1);
    if (is_of_desk(now.call)) {
        say_desk();
        return;
    }
    if (now.call != CHECK)
        say_lent(&lent[PLAN], 1);
    if (now.call == JUDGE)
        say_bytes("#   ", lent[PLAN].at, lent[PLAN].len);
    if (now.planned) {
        say_lent(&lent[TABLE], sizeof(int64_t));
        say_asked();
    }
}

/* Says what was wrong with which call, and ends the run. */
static void fault(const char *what)
{
    say("# fuzz: ");
    say(what);
    say_number("\n# seed ", now.seed);
    say_number(", call ", now.number);
    say(now.under_way ? ", within " : ", after ");
    say(CALL_NAMES[now.call]);
    say("\n");
    say_call();
    const struct lent *read = &lent[now.call == REPORT ? BLOCK : NET];
    if (now.call != TABLE_ENTRIES)
        say_bytes("", read->at, read->len);
    _exit(1);
}

/* Names the lent buffer at which a signal's address lies. */
static void say_address(const uint8_t *address)
{
    for (int i = 0; i < LENT; i++) {
        const struct lent *l = &lent[i];
        if (address < l->pages - GUARD || address >= l->pages + l->size + GUARD)
            continue;
        int ahead = address < l->at;
        say("# fuzz: at the ");
        say(l->name);
        say_number(ahead ? ", bytes before its start: " : ", bytes after its start: ", (uint64_t)(ahead ? l->at - address : address - l->at));
        say_number(", its bytes: ", l->len);
        say("\n");
    }
}

static void on_signal(int number, siginfo_t *info, void *context)
{
    (void)context;
    if (number == SIGSEGV || number == SIGBUS)
        say_address(info->si_addr);
    fault(number == SIGSEGV ? "SIGSEGV: memory that was not lent, or lent only to be read"
          : number == SIGBUS ? "SIGBUS"
          : number == SIGILL ? "SIGILL: the library gave up"
          : number == SIGFPE ? "SIGFPE"
                             : "SIGABRT: the library gave up");
}

/* The clock ticks once a second: it ends the run, and it finds a call that does not return. */
static volatile sig_atomic_t seconds;

static void on_tick(int number)
{
    static uint64_t last;
    static int waited;
    (void)number;
    seconds++;
    waited = now.number == last ? waited + 1 : 0;
    last = now.number;
    if (waited >= PATIENCE)
        fault("no end in ten seconds");
}

static void set_signals(void)
{
    static uint8_t stack[1 << 16]; /* the handler's own: the library's may have run out */
    stack_t own = {.ss_sp = stack, .ss_size = sizeof stack};
    struct sigaction crash = {.sa_sigaction = on_signal, .sa_flags = SA_SIGINFO | SA_ONSTACK};
    struct sigaction tick = {.sa_handler = on_tick, .sa_flags = SA_RESTART | SA_ONSTACK};
    const int crashes[] = {SIGSEGV, SIGBUS, SIGILL, SIGFPE, SIGABRT};
    int bad = sigaltstack(&own, NULL);
    for (size_t i = 0; i < sizeof crashes / sizeof crashes[0]; i++)
        bad |= sigaction(crashes[i], &crash, NULL);
    bad |= sigaction(SIGALRM, &tick, NULL);
    struct itimerval each_second = {{1, 0}, {1, 0}};
    bad |= setitimer(ITIMER_REAL, &each_second, NULL);
    if (bad) {
        perror("fuzz: signals");
        exit(2);
    }
}

static void must(int holds, const char *otherwise)
{
    if (!holds)
        fault(otherwise);
}

/* ---- The calls, each with what the header says of every answer ---- */

struct net {
    size_t len;
    uint8_t bytes[MOST_NET];
};

struct answer {
    uint64_t refusal;
    uint64_t results[4];
};

enum { NODES, STAGES, LAYERS };              /* of vorphiel_check */
enum { COST, SLACK, GRAIN_EXPONENT, FLOOR }; /* of vorphiel_plan; the first two also of vorphiel_judge */
enum { ROUNDS_RUN = GRAIN_EXPONENT };        /* of vorphiel_plan_rounds, beside cost, slack and floor */

/* How often each call answered with each number; on desks that were written over apart, all calls together. */
static uint64_t met[CALLS][NUMBERS], met_spoilt[NUMBERS];

/* Bit n: the call may answer n; any call on a desk that was written over. */
static const unsigned ALLOWED[] = {0x007F, 0x01FF, 0x1E7F, 0x5C7F, 0x807F, 0x30181, 0x10081, 0x10081, 0x10001};
static const unsigned ALLOWED_SPOILT = 0x381FF;

/* What stands in tables, plan buffers and results before a call; no word of it is 0. */
static uint64_t rubbish[MOST_TABLE + 64];

static const void *some_rubbish(void)
{
    return rubbish + below(64);
}

static void begin(int call, const struct net *net)
{
    lend(&lent[NET], net->bytes, net->len);
    protect(&lent[NET], PROT_READ);
    for (int i = RESULTS; i < LENT; i++)
        lend(&lent[i], some_rubbish(), sizeof(uint64_t));
    now.call = call;
    now.number++;
    now.under_way = 1;
}

static void *result(int number)
{
    return lent[RESULTS + number].at;
}

static struct answer finish(unsigned refusal, int results)
{
    struct answer answer = {.refusal = refusal};
    now.under_way = 0;
    protect(&lent[NET], PROT_READ | PROT_WRITE);
    unsigned allowed = now.spoilt ? ALLOWED_SPOILT : ALLOWED[now.call];
    must(refusal < NUMBERS && (allowed >> refusal & 1), "a refusal number that the call does not have");
    (now.spoilt ? met_spoilt : met[now.call])[refusal]++;
    must(margins_kept(&lent[NET]), "bytes beside the net were changed");
    for (int i = 0; i < results; i++) {
        memcpy(&answer.results[i], result(i), sizeof(uint64_t));
        must(margins_kept(&lent[RESULTS + i]), "bytes beside a result were changed");
        must(refusal == 0 || answer.results[i] == 0, "a result that is not 0 after a refusal");
    }
    return answer;
}

static struct answer check(const struct net *net)
{
    now.planned = 0;
    begin(CHECK, net);
    struct answer answer = finish(vorphiel_check(lent[NET].at, lent[NET].len, result(NODES), result(STAGES), result(LAYERS)), 3);
    if (answer.refusal == 0) {
        must(answer.results[NODES] >= 2 && answer.results[NODES] <= MOST_NODES, "a number of nodes that no net has");
        must(answer.results[STAGES] >= 1 && answer.results[STAGES] <= MOST_STAGES, "a number of stages that no net has");
        must(answer.results[LAYERS] >= 1 && answer.results[LAYERS] <= MOST_LAYERS, "a number of layers that no net has");
    }
    return answer;
}

static struct answer judge(const struct net *net, const uint8_t *plan, size_t len)
{
    lend(&lent[PLAN], plan, len);
    protect(&lent[PLAN], PROT_READ);
    begin(JUDGE, net);
    unsigned refusal = vorphiel_judge(lent[NET].at, lent[NET].len, lent[PLAN].at, lent[PLAN].len, result(COST), result(SLACK));
    struct answer answer = finish(refusal, 2);
    protect(&lent[PLAN], PROT_READ | PROT_WRITE);
    must(margins_kept(&lent[PLAN]), "bytes beside the plan were changed");
    return answer;
}

/* Whether the table is as the header says: all zero after 0 and 12, unchanged after the rest. */
static int table_right(unsigned refusal, const void *before)
{
    const struct lent *l = &lent[TABLE];
    if (refusal != 0 && refusal != 12)
        return memcmp(l->at, before, l->len) == 0;
    return all_are(l->at, l->len, 0);
}

/* The exponent k of the grain of a plan, or of the last round. */
static uint64_t exponent(struct asked asked, const struct answer *found)
{
    return asked.call == ROUNDS ? MOST_ROUNDS - found->results[ROUNDS_RUN] : found->results[GRAIN_EXPONENT];
}

/* Makes the call with what was lent. */
static unsigned ask(struct asked asked)
{
    int64_t *table = (int64_t *)(void *)lent[TABLE].at;
    if (asked.call == ROUNDS)
        return vorphiel_plan_rounds(lent[NET].at, lent[NET].len, asked.r, table, asked.entries, lent[PLAN].at, asked.buffer, result(COST), result(SLACK),
                                    result(FLOOR), result(ROUNDS_RUN));
    return vorphiel_plan(lent[NET].at, lent[NET].len, asked.p, asked.q, table, asked.entries, lent[PLAN].at, asked.buffer, result(COST), result(SLACK),
                         result(GRAIN_EXPONENT), result(FLOOR));
}

/* Plans a net of s stages (0 if it cannot be read); the plan found goes to `plan`. */
static struct answer plan_net(const struct net *net, size_t s, struct asked asked, uint8_t *plan)
{
    const void *table_before = some_rubbish();
    const uint8_t *buffer_before = some_rubbish();
    lend(&lent[TABLE], table_before, asked.entries * sizeof(int64_t));
    lend(&lent[PLAN], buffer_before, asked.buffer);
    now.planned = 1;
    now.asked = asked;
    begin(asked.call, net);
    unsigned refusal = ask(asked);
    struct answer answer = finish(refusal, 4);
    must(refusal != 0 || exponent(asked, &answer) <= MOST_K, "a grain or a number of rounds that there is not");
    must(margins_kept(&lent[TABLE]), "bytes beside the table were changed");
    must(margins_kept(&lent[PLAN]), "bytes beside the plan buffer were changed");
    must(table_right(refusal, table_before), "the table is not as it is to be after this answer");
    size_t written = refusal == 0 ? s : 0;
    must(written <= asked.buffer, "accepted with a plan buffer that is too short");
    must(memcmp(lent[PLAN].at + written, buffer_before + written, asked.buffer - written) == 0, "bytes of the plan buffer beyond the plan were changed");
    memcpy(plan, lent[PLAN].at, written);
    return answer;
}

/* How often the chart's call was asked for a number on the chart, and for one that is not there. */
static uint64_t charted, uncharted;

/* The chart's number for s stages and share 1/q, which the header's rule gives; 0 off the chart. */
static size_t chart_entries(uint64_t s, uint64_t q)
{
    int on_chart = s >= 1 && s <= MOST_STAGES && q >= 1 && q <= CHART_SHARES;
    now.call = TABLE_ENTRIES;
    now.chart_s = s;
    now.chart_q = q;
    now.number++;
    now.under_way = 1;
    uint64_t entries = vorphiel_table_entries(s, q);
    now.under_way = 0;
    charted += on_chart;
    uncharted += !on_chart;
    must(entries == (on_chart ? (s + 2) * (s + 2 * q * s) : 0), "not the chart's number, or one where the chart has none");
    return entries;
}

struct block {
    size_t len;
    uint8_t bytes[MOST_TRIED];
};

static struct vorphiel_totals report(const struct block *block)
{
    lend(&lent[BLOCK], block->bytes, block->len);
    protect(&lent[BLOCK], PROT_READ);
    now.call = REPORT;
    now.number++;
    now.under_way = 1;
    struct vorphiel_totals totals = vorphiel_report(lent[BLOCK].at, lent[BLOCK].len);
    now.under_way = 0;
    protect(&lent[BLOCK], PROT_READ | PROT_WRITE);
    must(margins_kept(&lent[BLOCK]), "bytes beside the block were changed");
    return totals;
}

/* ---- Nets as bytes: fields and the numbers in them ---- */

/* Where the fields of a net begin, as far as their heads and payloads are there; at[count] is where the last one ends. */
struct fields {
    size_t count;
    size_t at[MOST_FIELDS + 1];
};

/* The bytes of the field that has this head, if its payload is there. */
static size_t field_len(const uint8_t *head)
{
    return 3 + 256 * (size_t)head[1] + head[2];
}

static void find_fields(const struct net *net, struct fields *found)
{
    size_t at = 0;
    found->count = 0;
    found->at[0] = 0;
    while (found->count < MOST_FIELDS && net->len - at >= 3) {
        size_t len = field_len(net->bytes + at);
        if (net->len - at < len)
            break;
        at += len;
        found->at[++found->count] = at;
    }
}

/* The tag of a layers field, by edition. */
enum { FIRST_EDITION = 1, SECOND_EDITION = 7 };

/* The bytes of a layer: the two units, and in the second edition the via resistance. 0 for a tag that is not of layers. */
static size_t layer_width(unsigned tag)
{
    return tag == FIRST_EDITION ? 4 : tag == SECOND_EDITION ? 6 : 0;
}

/* The number of layers by tag and length of the first field. */
static size_t layer_count(const struct net *net)
{
    size_t width = net->len < 3 ? 0 : layer_width(net->bytes[0]);
    return width == 0 ? 0 : (field_len(net->bytes) - 3) / width;
}

/* What a payload holds, by tag: u unit value, v via resistance, g gate resistance or input capacitance, i intrinsic delay, t time, p parent, l length, c cost.
 * Capitals: all of them once for each layer. */
static const char *const LAYOUTS[] = {"", "UU", "git", "plC", "plCggi", "plCgt", "", "UUV"};

struct place {
    char what;
    size_t at, width;
    int64_t low, high;
};

/* A place for the node of this number; only a parent's range depends on it. */
static struct place place_for(char what, size_t number)
{
    const int64_t time = 1000000000000000;
    switch (what) {
    case 'u': return (struct place){what, 0, 2, 1, 1000};
    case 'v': return (struct place){what, 0, 2, 0, 1000};
    case 'g': return (struct place){what, 0, 4, 0, 100000};
    case 'i': return (struct place){what, 0, 4, 0, 1000000000};
    case 't': return (struct place){what, 0, 8, -time, time};
    case 'p': return (struct place){what, 0, 2, 0, number == 0 ? 0 : (int64_t)number - 1};
    case 'l': return (struct place){what, 0, 2, 0, 4000};
    default: return (struct place){'c', 0, 4, 1, 1000000};
    }
}

/* The numbers of the field at `start`, as far as they lie before `end`: how many. Field 0 holds layers, field 1 the driver, field n + 1 node n. */
static size_t find_places(const struct net *net, size_t start, size_t end, size_t field, struct place *places)
{
    size_t at = start + 3, count = 0, tag = net->bytes[start];
    for (const char *next = tag < sizeof LAYOUTS / sizeof LAYOUTS[0] ? LAYOUTS[tag] : ""; *next != '\0';) {
        size_t capitals = strspn(next, "UVC"), group = capitals > 0 ? capitals : 1;
        for (size_t i = 0, all = group * (capitals > 0 ? layer_count(net) : 1); i < all; i++) {
            struct place place = place_for((char)tolower(next[i % group]), field == 0 ? 0 : field - 1);
            if (at + place.width > end || count == MOST_PLACES)
                return count;
            place.at = at;
            places[count++] = place;
            at += place.width;
        }
        next += group;
    }
    return count;
}

static uint64_t read_number(const struct net *net, const struct place *place)
{
    uint64_t value = 0;
    for (size_t i = 0; i < place->width; i++)
        value = value << 8 | net->bytes[place->at + i];
    return value;
}

static void write_number(struct net *net, const struct place *place, uint64_t value)
{
    for (size_t i = place->width; i > 0; i--, value >>= 8)
        net->bytes[place->at + i - 1] = (uint8_t)value;
}

static int in_range(const struct net *net, const struct place *place)
{
    int64_t value = (int64_t)read_number(net, place);
    return value >= place->low && value <= place->high;
}

/* ---- Changes to a net ---- */

/* Nets to make others from: those of the files stay, the rest change. */
static struct net pool[POOL];
static size_t given, pooled;

/* Any of them, but a long one seldom: short nets are tried quickly. */
static const struct net *some_net(void)
{
    const struct net *one = &pool[below(pooled)], *other = &pool[below(pooled)];
    return one->len < 3000 || one_in(20) ? one : other;
}

static void copy_net(struct net *to, const struct net *from)
{
    to->len = from->len;
    memcpy(to->bytes, from->bytes, from->len);
}

/* Puts other bytes in the place of some of a net's; a net that would be too long stays as it is. */
static void replace(struct net *net, size_t at, size_t old, const uint8_t *bytes, size_t len)
{
    static uint8_t copy[MOST_NET];
    if (len > MOST_NET || net->len - old + len > MOST_NET)
        return;
    memcpy(copy, bytes, len);
    memmove(net->bytes + at + len, net->bytes + at + old, net->len - at - old);
    memcpy(net->bytes + at, copy, len);
    net->len = net->len - old + len;
}

/* A value for a place that is in its range: any, small, or one of the ends. */
static uint64_t good_value(const struct place *place)
{
    switch (below(6)) {
    case 0: return (uint64_t)place->low;
    case 1: return (uint64_t)place->high;
    case 2:
    case 3: return (uint64_t)between(place->low, place->high);
    default: return (uint64_t)(place->low < 0 ? between(-50, 5000) : between(place->low, place->high < 40 ? place->high : 40));
    }
}

/* One that often is not: just outside, a neighbour of the old one, any bits. */
static uint64_t odd_value(const struct place *place, uint64_t old)
{
    switch (below(6)) {
    case 0: return (uint64_t)place->low - 1;
    case 1: return (uint64_t)place->high + 1;
    case 2: return old + 1;
    case 3: return old - 1;
    case 4: return UINT64_C(1) << (8 * place->width - 1);
    default: return any();
    }
}

/* Another number somewhere; a parent less often, as few nodes have room. */
static void change_number(struct net *net, int odd)
{
    struct fields fields;
    struct place places[MOST_PLACES];
    find_fields(net, &fields);
    if (fields.count == 0)
        return;
    size_t field = below(fields.count);
    size_t count = find_places(net, fields.at[field], fields.at[field + 1], field, places);
    if (count == 0)
        return;
    const struct place *place = &places[below(count)];
    if (place->what == 'p')
        place = &places[below(count)];
    write_number(net, place, odd ? odd_value(place, read_number(net, place)) : good_value(place));
}

/* A field left out, doubled, moved, or the fields from it on taken from another net. */
static void change_fields(struct net *net)
{
    struct fields fields;
    find_fields(net, &fields);
    if (fields.count < 3)
        return;
    size_t one = 2 + below(fields.count - 2), other = 2 + below(fields.count - 2);
    size_t at = fields.at[one], len = fields.at[one + 1] - at, to = fields.at[other];
    switch (below(4)) {
    case 0:
        replace(net, at, len, net->bytes, 0);
        break;
    case 1:
        replace(net, to, 0, net->bytes + at, len);
        break;
    case 2:
        replace(net, to, fields.at[other + 1] - to, net->bytes + at, len);
        break;
    default: {
        const struct net *from = some_net();
        struct fields theirs;
        find_fields(from, &theirs);
        size_t start = theirs.at[below(theirs.count + 1)];
        replace(net, at, net->len - at, from->bytes + start, from->len - start);
    }
    }
}

/* Another tag or length in a head. */
static void change_head(struct net *net)
{
    struct fields fields;
    find_fields(net, &fields);
    size_t at = fields.at[below(fields.count + 1)];
    if (net->len - at < 3)
        return;
    if (one_in(2))
        net->bytes[at] = (uint8_t)(one_in(8) ? any() : below(8));
    else if (one_in(8))
        net->bytes[at + 1] = (uint8_t)any();
    else
        net->bytes[at + 2] = (uint8_t)(net->bytes[at + 2] + (one_in(2) ? 1 : one_in(2) ? 4 : 6) * between(-3, 3));
}

/* The refusal that the layers field decides by itself, being the first: the head, its tag and length, the payload, the ranges. 0 if it has no fault. */
static uint64_t layers_refusal(const struct net *net)
{
    struct place places[MOST_PLACES];
    if (net->len < 3)
        return 1;
    size_t len = field_len(net->bytes) - 3, width = layer_width(net->bytes[0]);
    if (width == 0 || len == 0 || len % width != 0 || len > MOST_LAYERS * width)
        return 2;
    if (net->len - 3 < len)
        return 1;
    for (size_t i = find_places(net, 0, 3 + len, 0, places); i > 0; i--)
        if (!in_range(net, &places[i - 1]))
            return 3;
    return 0;
}

/* Whether there is a layers field that is whole, whatever its numbers. */
static int has_layers(const struct net *net)
{
    uint64_t refusal = layers_refusal(net);
    return refusal == 0 || refusal == 3;
}

/* The edition of the layers field becomes that of the tag; what a layer has no room for is left out, and a via resistance that it did not have is 0. */
static void write_edition(struct net *net, unsigned tag)
{
    size_t layers = layer_count(net), from = layer_width(net->bytes[0]), to = layer_width(tag);
    uint8_t field[3 + 6 * MOST_LAYERS] = {(uint8_t)tag, 0, (uint8_t)(to * layers)};
    for (size_t layer = 0; layer < layers; layer++)
        memcpy(field + 3 + to * layer, net->bytes + 3 + from * layer, from < to ? from : to);
    replace(net, 0, 3 + from * layers, field, 3 + to * layers);
}

static unsigned other_tag(const struct net *net)
{
    return net->bytes[0] == FIRST_EDITION ? SECOND_EDITION : FIRST_EDITION;
}

/* The other edition; coming to the second, some layers get a via resistance. */
static void change_edition(struct net *net)
{
    struct place places[MOST_PLACES];
    if (!has_layers(net))
        return;
    write_edition(net, other_tag(net));
    for (size_t i = find_places(net, 0, field_len(net->bytes), 0, places); i > 0; i--)
        if (places[i - 1].what == 'v' && one_in(2))
            write_number(net, &places[i - 1], good_value(&places[i - 1]));
}

/* Bytes changed, cut off, put in or put behind, without regard to fields. */
static void change_bytes(struct net *net)
{
    size_t at = below(net->len + 1), some = margin(net->len - at);
    switch (below(6)) {
    case 0:
        net->len = at;
        break;
    case 1:
        replace(net, at, 0, some_rubbish(), below(40));
        break;
    case 2:
        replace(net, net->len, 0, some_rubbish(), 1 + below(4));
        break;
    case 3:
        replace(net, at, below(some + 1), net->bytes, 0);
        break;
    default:
        if (at < net->len)
            net->bytes[at] = (uint8_t)(one_in(3) ? any() : net->bytes[at] ^ 1u << below(8));
    }
}

/* ---- Nets grown from nothing ---- */

/* A net that grows: for each node its number of children, and 2 for a sink, which has none and takes none. At most 250 nodes get a sink each. */
struct growing {
    struct net *net;
    size_t layers, nodes, buffers;
    uint8_t children[2 * MOST_NODES];
    int64_t scale; /* the largest of most numbers */
    int timely;    /* required times are late */
};

static uint64_t grown_value(const struct growing *g, const struct place *place, size_t parent)
{
    if (place->what == 'p')
        return parent;
    if (place->what == 't')
        return (uint64_t)(g->timely ? place->high : between(-g->scale, g->scale * 1000));
    return (uint64_t)between(place->low, place->high < g->scale ? place->high : g->scale);
}

/* Adds a field of the right length with numbers in their ranges. */
static void add_field(struct growing *g, unsigned tag, size_t parent)
{
    static const uint8_t zeros[128];
    struct place places[MOST_PLACES];
    const size_t lengths[] = {0, 4 * g->layers, 16, 4 + 4 * g->layers, 16 + 4 * g->layers, 16 + 4 * g->layers, 0, 6 * g->layers};
    size_t start = g->net->len;
    const uint8_t head[] = {(uint8_t)tag, 0, (uint8_t)lengths[tag]};
    replace(g->net, start, 0, head, sizeof head);
    replace(g->net, g->net->len, 0, zeros, lengths[tag]);
    size_t count = find_places(g->net, start, g->net->len, 0, places);
    for (size_t i = 0; i < count; i++)
        write_number(g->net, &places[i], grown_value(g, &places[i], parent));
    if (tag == 2)
        write_number(g->net, &places[2], (uint64_t)between(-g->scale, g->scale));
}

static void add_node(struct growing *g, unsigned tag, size_t parent)
{
    add_field(g, tag, parent);
    g->children[parent]++;
    g->children[++g->nodes] = tag == 5 ? 2 : 0;
    g->buffers += tag == 4;
}

/* A random tree: nodes are hung where there is room, then every node that has no child gets a sink. Now and then a limit is passed. */
static void grow_net(struct net *net)
{
    struct growing g = {.net = net, .layers = 1 + below(one_in(4) ? MOST_LAYERS : 4), .scale = one_in(4) ? between(1, 1000000) : between(1, 30)};
    size_t wanted = 1 + below(one_in(40) ? 250 : 14);
    g.timely = one_in(3);
    net->len = 0;
    add_field(&g, one_in(2) ? FIRST_EDITION : SECOND_EDITION, 0);
    add_field(&g, 2, 0);
    for (size_t tries = 0; g.nodes < wanted && tries < 4 * wanted; tries++) {
        size_t parent = one_in(3) ? g.nodes : below(g.nodes + 1);
        unsigned tag = g.buffers < 63 || one_in(8) ? 3 + (unsigned)below(3) : 3;
        if (g.children[parent] < 2)
            add_node(&g, tag, parent);
    }
    size_t last = g.nodes;
    for (size_t number = 0; number <= last; number++)
        if (g.children[number] == 0)
            add_node(&g, 5, number);
}

/* A net to try: one of the pool or a grown one, with some changes; or no net at all. */
static void make_net(struct net *net)
{
    if (one_in(60)) {
        net->len = 0;
        replace(net, 0, 0, some_rubbish(), below(100));
    } else if (one_in(4)) {
        grow_net(net);
    } else {
        copy_net(net, some_net());
    }
    if (one_in(8))
        change_edition(net);
    for (size_t times = below(4); times > 0; times--)
        change_number(net, 0);
    if (one_in(5))
        change_fields(net);
    if (one_in(8))
        change_number(net, 1);
    if (one_in(12))
        change_head(net);
    if (one_in(12))
        change_bytes(net);
}

/* ---- One net: all calls, and what they say of each other ---- */

static uint64_t nets, readable, planned, planned_long, planned_vias, twins, raised;

/* How often a layers field of the second edition had no fault (0), or was refused with 1, 2 or 3. */
static uint64_t second_edition[4];

/* Whether no number is outside its range, as far as fields are there; parents aside, which have a refusal of their own. */
static int all_in_range(const struct net *net)
{
    struct fields fields;
    struct place places[MOST_PLACES];
    find_fields(net, &fields);
    for (size_t field = 0; field < fields.count; field++)
        for (size_t i = find_places(net, fields.at[field], fields.at[field + 1], field, places); i > 0; i--)
            if (places[i - 1].what != 'p' && !in_range(net, &places[i - 1]))
                return 0;
    return 1;
}

/* Checks a net, and sees that its layers are read rightly, that no number outside its range was read, and that 3 is given for one only. */
static struct answer check_rightly(const struct net *net)
{
    struct answer counts = check(net);
    uint64_t of_layers = layers_refusal(net);
    must(of_layers == 0 || counts.refusal == of_layers, "not the refusal that is due for the layers field");
    must(counts.refusal != 0 || counts.results[LAYERS] == layer_count(net), "not the number of layers that the layers field has");
    if (net->len > 0 && net->bytes[0] == SECOND_EDITION)
        second_edition[of_layers]++;
    must(counts.refusal != 0 || all_in_range(net), "a net was read that has a number outside its range");
    must(counts.refusal != 3 || !all_in_range(net), "refusal 3, but every number is in its range");
    return counts;
}

/* A layers field by itself, of any length up to beyond the limits, its numbers mostly in range: the refusal is known, 1 if it has no fault, for the driver is
 * due behind it. */
static void try_layers(void)
{
    static struct net net;
    size_t len = below(6 * MOST_LAYERS + 12);
    const uint8_t head[] = {(uint8_t)(one_in(8) ? below(9) : one_in(2) ? FIRST_EDITION : SECOND_EDITION), one_in(20), (uint8_t)len};
    memcpy(net.bytes, head, sizeof head);
    net.len = sizeof head + len;
    struct place unit = place_for('u', 0); /* such a number is in range for a via too */
    for (unit.at = sizeof head; unit.at < net.len; unit.at += unit.width)
        write_number(&net, &unit, good_value(&unit));
    if (one_in(3))
        change_number(&net, 1);
    if (one_in(8))
        net.len = below(net.len + 1);
    struct answer counts = check_rightly(&net);
    must(counts.refusal == 1 || layers_refusal(&net) != 0, "layers alone, without fault: not 1 for the driver that is due");
}

/* An edge: its stage and length, where its cost on layer 0 stands, and the input capacitance at its lower end if a terminal is there. */
struct edge {
    size_t stage;
    uint64_t length, capacitance;
    int to_terminal;
    struct place cost;
};

/* The edges of a net that can be read, and how many. An edge is of the stage below its parent; a buffer begins the next stage. */
static size_t find_edges(const struct net *net, struct edge *edges)
{
    struct fields fields;
    struct place places[MOST_PLACES];
    size_t below_node[MOST_NODES] = {0}, buffers = 0, count = 0;
    find_fields(net, &fields);
    for (size_t node = 1; node + 1 < fields.count; node++) {
        size_t at = fields.at[node + 1], stage;
        int to_terminal = net->bytes[at] != 3; /* then its capacitance follows the costs */
        find_places(net, at, fields.at[node + 2], node + 1, places);
        stage = below_node[read_number(net, &places[0])];
        below_node[node] = net->bytes[at] == 4 ? ++buffers : stage;
        uint64_t capacitance = to_terminal ? read_number(net, &places[2 + layer_count(net)]) : 0;
        edges[count++] = (struct edge){stage, read_number(net, &places[1]), capacitance, to_terminal, places[2]};
    }
    return count;
}

/* Whether a net that can be read has an edge longer than the scope document's first limit, 1,000. */
static int has_long_edge(const struct net *net)
{
    struct edge edges[MOST_NODES];
    for (size_t i = find_edges(net, edges); i > 0; i--)
        if (edges[i - 1].length > 1000)
            return 1;
    return 0;
}

/* Whether a layer of a whole layers field has a via resistance above 0. */
static int has_vias(const struct net *net)
{
    struct place places[MOST_PLACES];
    for (size_t i = find_places(net, 0, field_len(net->bytes), 0, places); i > 0; i--)
        if (places[i - 1].what == 'v' && read_number(net, &places[i - 1]) > 0)
            return 1;
    return 0;
}

/* A plan that is mostly of the right length with layers that the net has. */
static size_t make_plan(size_t s, size_t layers, uint8_t *plan)
{
    size_t len = one_in(8) ? below(MOST_PLAN) : s;
    size_t most = layers == 0 ? 1 : layers;
    size_t same = below(most);
    int alike = one_in(3);
    for (size_t i = 0; i < len; i++)
        plan[i] = (uint8_t)(alike ? same : below(most));
    if (len > 0 && one_in(8))
        plan[below(len)] = (uint8_t)(one_in(2) ? most : any());
    return len;
}

/* The number that judging is to give, for all that the header says. */
static uint64_t judging_refusal(const struct answer *counts, const uint8_t *plan, size_t len)
{
    if (counts->refusal != 0)
        return counts->refusal;
    if (len != counts->results[STAGES])
        return 7;
    for (size_t i = 0; i < len; i++)
        if (plan[i] >= counts->results[LAYERS])
            return 8;
    return 0;
}

/* Judges a plan, and sees that the refusal is right. */
static struct answer judge_rightly(const struct net *net, const struct answer *counts, const uint8_t *plan, size_t len)
{
    struct answer judged = judge(net, plan, len);
    must(judged.refusal == judging_refusal(counts, plan, len), "vorphiel_judge: not the refusal that is due");
    return judged;
}

/* A plan of a net that can be read. */
static void make_whole_plan(const struct answer *counts, uint8_t *plan)
{
    for (size_t i = 0; i < counts->results[STAGES]; i++)
        plan[i] = (uint8_t)below(counts->results[LAYERS]);
}

/* Moves the arrival time so that a plan of the net is just in time, or a tick late or early: what decides is close then. A later arrival takes as much off the
 * slack, which judging must confirm. */
static void tighten(struct net *net, const struct answer *counts)
{
    uint8_t plan[MOST_STAGES];
    struct fields fields;
    struct place places[MOST_PLACES];
    make_whole_plan(counts, plan);
    struct answer judged = judge_rightly(net, counts, plan, counts->results[STAGES]);
    find_fields(net, &fields);
    find_places(net, fields.at[1], fields.at[2], 1, places);
    int64_t wanted = one_in(2) ? 0 : between(-1, 1);
    int64_t arrival = (int64_t)read_number(net, &places[2]) + (int64_t)judged.results[SLACK] - wanted;
    if (arrival < places[2].low || arrival > places[2].high)
        return;
    write_number(net, &places[2], (uint64_t)arrival);
    struct answer again = judge_rightly(net, counts, plan, counts->results[STAGES]);
    must(again.results[COST] == judged.results[COST] && (int64_t)again.results[SLACK] == wanted, "another arrival time does not move the slack as it should");
}

static uint64_t some_share(uint64_t low)
{
    switch (below(8)) {
    case 0: return low;
    case 1: return 1;
    case 2: return MOST_SHARE;
    case 3: return (uint64_t)between(1, MOST_SHARE);
    default: return (uint64_t)between(1, 8);
    }
}

/* A number for a place where at most `most` is allowed. */
static uint64_t wild_number(uint64_t most)
{
    switch (below(4)) {
    case 0: return 0;
    case 1: return most + below(3);
    case 2: return UINT64_MAX - below(3);
    default: return any() >> below(64);
    }
}

static uint64_t some_rounds(void)
{
    return one_in(4) ? MOST_ROUNDS : (uint64_t)between(1, MOST_ROUNDS);
}

/* A table length that is never too short (the chart's number, or the header's rule), or 0 if there is none or it is too long to be lent here. */
static size_t enough_entries(size_t s, struct asked asked)
{
    if (asked.p < 1 || asked.p > MOST_SHARE || asked.q < 1 || asked.q > MOST_SHARE)
        return 0;
    size_t entries = asked.p == 1 ? chart_entries(s, asked.q) : 0;
    if (entries == 0)
        entries = (s + (2 * asked.q * s + asked.p - 1) / asked.p) * (s + 2);
    return entries <= MOST_TABLE ? entries : 0;
}

static size_t some_entries(size_t s, struct asked asked)
{
    switch (below(6)) {
    case 0: return below(70);
    case 1: return below(4000);
    case 2: return below(60) * (s + 2) + below(s + 2);
    case 3: return 8192;
    case 4: return enough_entries(s, asked);
    default: return below(60) * (s + 2);
    }
}

static struct asked make_asked(int call, size_t s)
{
    struct asked asked = {.call = call, .p = some_share(0), .q = some_share(1), .r = some_rounds(), .buffer = s};
    if (one_in(12))
        asked.p = wild_number(MOST_SHARE);
    if (one_in(12))
        asked.q = wild_number(MOST_SHARE);
    if (one_in(6))
        asked.r = wild_number(MOST_ROUNDS);
    asked.entries = some_entries(s, asked);
    if (one_in(3))
        asked.buffer = one_in(3) ? below(s + 1) : one_in(2) ? s + below(20) : below(MOST_PLAN);
    return asked;
}

/* The number for a share or rounds out of range, 0 if they are in it. */
static uint64_t range_refusal(struct asked asked)
{
    if (asked.call == ROUNDS)
        return asked.r < 1 || asked.r > MOST_ROUNDS ? 14 : 0;
    return asked.p > MOST_SHARE || asked.q < 1 || asked.q > MOST_SHARE ? 9 : 0;
}

/* Whether some plan of a net that can be read meets timing: then a table without a column is refused with 12, else 11 comes first. */
static int some_plan_in_time(const struct net *net, size_t s)
{
    uint8_t plan[MOST_STAGES];
    struct asked asked = {.call = PLANNING, .p = some_share(0), .q = some_share(1), .entries = below(s + 2), .buffer = s};
    uint64_t refusal = plan_net(net, s, asked, plan).refusal;
    must(refusal == 11 || refusal == 12, "a table without a column, and neither 11 nor 12");
    return refusal == 12;
}

/* What is known of a net: its counts, whether some plan meets timing, and a plan that was judged. */
struct known {
    const struct net *net;
    struct answer counts;
    int in_time;
    const uint8_t *plan;
    struct answer judged;
};

/* Whether the number is one that planning may give for all that is known; with a column or more only the share's call may still refuse. */
static int planning_refusal_right(const struct known *known, struct asked asked, uint64_t refusal)
{
    size_t s = known->counts.results[STAGES];
    if (known->counts.refusal != 0)
        return refusal == known->counts.refusal;
    if (range_refusal(asked) != 0)
        return refusal == range_refusal(asked);
    if (asked.buffer < s)
        return refusal == 10;
    if (!known->in_time)
        return refusal == 11;
    if (asked.entries < s + 2)
        return refusal == 12;
    return refusal == 0 || (refusal == 12 && asked.call == PLANNING);
}

/* Whether the cost of the plan found for s stages is as near to another cost as it is to be: within the share, q * cost <= (q + p) * other, whatever the numbers;
 * or above it by s * (g - 1) at most, where g is the grain of the last round. */
static int near_enough(struct asked asked, const struct answer *found, size_t s, uint64_t other)
{
    uint64_t cost = found->results[COST];
    if (asked.call == ROUNDS)
        return cost <= other + s * ((UINT64_C(1) << exponent(asked, found)) - 1);
    return (unsigned __int128)asked.q * cost <= (unsigned __int128)(asked.q + asked.p) * other;
}

/* Whether the grain g = 2^k can be the scope document's for s stages: the coarsest with q * s * (g - 1) <= p * g * V(k), where g * V(k) is the floor. Of
 * V(k + 1) it is known that V(k) <= 2 * V(k + 1) + s; so the floor also shows that 2g is too coarse. */
static int grain_right(struct asked asked, const struct answer *found, size_t s)
{
    uint64_t k = found->results[GRAIN_EXPONENT];
    uint64_t g = UINT64_C(1) << k, floor = found->results[FLOOR], sure = floor < g * s ? 0 : floor - g * s;
    return asked.q * s * (g - 1) <= asked.p * floor && (k == MOST_K || asked.q * s * (2 * g - 1) > asked.p * sure);
}

/* The grain g = 2^k times a plan's rounded cost: each stage's cost divided by g, rounded down. */
static uint64_t rounded_to_grain(const struct net *net, const uint8_t *plan, uint64_t k)
{
    struct edge edges[MOST_NODES];
    uint64_t costs[MOST_STAGES] = {0}, rounded = 0;
    for (size_t i = find_edges(net, edges); i > 0; i--) {
        struct place cost = edges[i - 1].cost;
        cost.at += plan[edges[i - 1].stage] * cost.width;
        costs[edges[i - 1].stage] += read_number(net, &cost);
    }
    for (size_t i = 0; i < MOST_STAGES; i++)
        rounded += costs[i] >> k << k;
    return rounded;
}

/* Whether the number of rounds run is right for the plan found, k being the last: V(k), which the floor tells, is below the number of columns; and if more were
 * asked for, V(k - 1) is not, so that no plan that meets timing costs less at the next grain. */
static int rounds_right(const struct net *net, size_t s, struct asked asked, const struct answer *found, const uint8_t *plan)
{
    uint64_t k = exponent(asked, found), floor = found->results[FLOOR], columns = asked.entries / (s + 2);
    if (floor >> k << k != floor || floor >> k >= columns || found->results[ROUNDS_RUN] > asked.r)
        return 0;
    return found->results[ROUNDS_RUN] == asked.r || rounded_to_grain(net, plan, k - 1) >> (k - 1) >= columns;
}

/* What an accepted plan's results must be to another plan of the net: if that one meets timing, its rounded cost is no less than V(k). */
static void hold_against(const struct net *net, size_t s, struct asked asked, const struct answer *found, const uint8_t *plan, const struct answer *judged)
{
    if (judged->refusal != 0 || (int64_t)judged->results[SLACK] < 0)
        return;
    must(found->refusal != 11, "refusal 11, but a plan was judged that meets timing");
    if (found->refusal != 0)
        return;
    uint64_t rounded = rounded_to_grain(net, plan, exponent(asked, found));
    must(found->results[FLOOR] <= rounded, "the floor is above the grain times the rounded cost of a plan that meets timing");
    must(near_enough(asked, found, s, judged->results[COST]), "the plan costs more than is allowed over another that meets timing");
}

/* Whether grain and floor are those of the plan found with a share. */
static void grain_and_floor_right(const struct net *net, size_t s, struct asked asked, const struct answer *found, const uint8_t *plan)
{
    must(grain_right(asked, found, s), "the grain is not the one that belongs to this share and floor");
    uint64_t rounded = rounded_to_grain(net, plan, found->results[GRAIN_EXPONENT]);
    must(found->results[FLOOR] == rounded, "the floor is not the grain times the plan's rounded cost");
}

/* After acceptance: the plan judged, its cost and floor; a neighbour of the plan, one stage on another layer. */
static void plan_keeps_promises(const struct net *net, const struct answer *counts, struct asked asked, const struct answer *found, uint8_t *plan)
{
    size_t s = counts->results[STAGES];
    struct answer judged = judge_rightly(net, counts, plan, s);
    must(judged.refusal == 0, "the plan found is no plan of the net");
    must(judged.results[COST] == found->results[COST], "the cost is not the one that judging gives");
    must(judged.results[SLACK] == found->results[SLACK], "the slack is not the one that judging gives");
    must((int64_t)found->results[SLACK] >= 0, "the plan found misses timing");
    must(found->results[FLOOR] <= found->results[COST], "the floor is above the cost");
    must(near_enough(asked, found, s, found->results[FLOOR]), "the cost is above the floor by more than is allowed");
    if (asked.call == ROUNDS)
        must(rounds_right(net, s, asked, found, plan), "not as many rounds as were asked for and the table has columns for");
    else
        grain_and_floor_right(net, s, asked, found, plan);
    hold_against(net, s, asked, found, plan, &judged);
    uint8_t neighbour[MOST_STAGES];
    memcpy(neighbour, plan, s);
    neighbour[below(s)] = (uint8_t)below(counts->results[LAYERS]);
    judged = judge_rightly(net, counts, neighbour, s);
    hold_against(net, s, asked, found, neighbour, &judged);
}

/* Plans as is asked for, and sees that the refusal is right and the promises are kept. */
static struct answer plan_rightly(const struct known *known, struct asked asked, uint8_t *plan)
{
    size_t s = known->counts.results[STAGES];
    struct answer found = plan_net(known->net, s, asked, plan);
    must(planning_refusal_right(known, asked, found.refusal), "not the refusal that is due");
    hold_against(known->net, s, asked, &found, known->plan, &known->judged);
    if (found.refusal == 0)
        plan_keeps_promises(known->net, &known->counts, asked, &found, plan);
    return found;
}

/* The length of a table with as many whole columns or more. */
static size_t other_entries(size_t s, size_t entries)
{
    if (one_in(3))
        return entries - entries % (s + 2);
    return entries + below(one_in(4) ? MOST_TABLE - entries + 1 : margin(MOST_TABLE - entries) + 1);
}

/* After acceptance: a longer table, or one without the entries beyond the last whole column, gives the same. After 12: a table that is never too short is not. */
static void other_table(const struct net *net, size_t s, struct asked asked, const struct answer *found, const uint8_t *plan)
{
    uint8_t again[MOST_STAGES];
    size_t enough = enough_entries(s, asked);
    struct asked other = asked;
    if (found->refusal == 12) {
        other.entries = enough;
        must(enough == 0 || plan_net(net, s, other, again).refusal == 0, "a table that is never too short was");
        return;
    }
    other.buffer = s + below(9);
    other.entries = other_entries(s, asked.entries);
    struct answer second = plan_net(net, s, other, again);
    must(memcmp(&second, found, sizeof second) == 0, "another answer with a table of as many columns or more");
    must(memcmp(again, plan, s) == 0, "another plan with a table of as many columns or more");
}

/* Beside a plan found with a share: rounds down to its grain are all run on the same table, to the same floor. That plan is also the last of the rounds: so they
 * give the plan of the rounds before, or this one if it is cheaper. */
static void rounds_beside_share(const struct net *net, size_t s, struct asked asked, const struct answer *found, const uint8_t *plan)
{
    uint8_t all_plan[MOST_STAGES], before_plan[MOST_STAGES];
    asked.call = ROUNDS;
    asked.r = MOST_ROUNDS - found->results[GRAIN_EXPONENT] - 1;
    struct answer before = plan_net(net, s, asked, before_plan);
    asked.r++;
    struct answer all = plan_net(net, s, asked, all_plan);
    int cheaper = found->results[COST] < before.results[COST];
    const struct answer *due = cheaper ? found : &before;
    must(before.refusal == 0 && all.refusal == 0 && all.results[ROUNDS_RUN] == asked.r, "not as many rounds as down to the grain of the plan found with a share");
    must(all.results[FLOOR] == found->results[FLOOR], "another floor than that of the plan found with a share");
    must(all.results[COST] == due->results[COST] && all.results[SLACK] == due->results[SLACK], "not the cheapest plan of the rounds, or its slack");
    must(memcmp(all_plan, cheaper ? plan : before_plan, s) == 0, "not the cheapest plan of the rounds, or not that of the larger k");
}

/* After all rounds: share 0 finds a plan of the same cost on the same table, and both floors are this cost. */
static void share_0_beside_rounds(const struct net *net, size_t s, struct asked asked, const struct answer *found)
{
    uint8_t plan[MOST_STAGES];
    asked.call = PLANNING;
    asked.p = 0;
    asked.q = some_share(1);
    struct answer cheapest = plan_net(net, s, asked, plan);
    must(cheapest.refusal == 0, "all rounds were run, but on the same table share 0 is refused");
    must(cheapest.results[COST] == found->results[COST] && found->results[FLOOR] == found->results[COST], "all rounds, but not the cheapest plan or its floor");
}

/* After rounds: more of them on the same table, or as many on one of as many columns or more, give no dearer plan and no lower floor, and no fewer are run. If
 * none is run in addition, the answer is the same; if none is cheaper, the plan. */
static void more_rounds(const struct net *net, size_t s, struct asked asked, const struct answer *found, const uint8_t *plan)
{
    uint8_t again[MOST_STAGES];
    struct asked more = asked;
    if (one_in(3))
        more.entries = other_entries(s, asked.entries);
    else
        more.r = (uint64_t)between((int64_t)asked.r, MOST_ROUNDS);
    struct answer second = plan_net(net, s, more, again);
    must(second.refusal == 0, "refused, but not for fewer rounds or columns");
    must(second.results[COST] <= found->results[COST], "a dearer plan for more rounds or columns");
    must(second.results[FLOOR] >= found->results[FLOOR], "a lower floor for more rounds or columns");
    must(second.results[ROUNDS_RUN] >= found->results[ROUNDS_RUN], "fewer rounds were run for more rounds or columns");
    must(second.results[COST] < found->results[COST] || memcmp(again, plan, s) == 0, "another plan for more rounds or columns, and it is not cheaper");
    must(second.results[ROUNDS_RUN] > found->results[ROUNDS_RUN] || memcmp(&second, found, sizeof second) == 0, "another answer for the same rounds");
}

/* After rounds: with V(k) + 1 columns, k being the last, which the floor tells, the answer is the same; with one column less that round is not run. */
static void just_enough_columns(const struct net *net, size_t s, struct asked asked, const struct answer *found, const uint8_t *plan)
{
    uint8_t again[MOST_STAGES];
    uint64_t least = found->results[FLOOR] >> exponent(asked, found);
    asked.entries = (least + 1) * (s + 2);
    struct answer second = plan_net(net, s, asked, again);
    must(memcmp(&second, found, sizeof second) == 0 && memcmp(again, plan, s) == 0, "another answer with as many columns as the last round needs");
    asked.entries -= 1 + below(s + 2);
    second = plan_net(net, s, asked, again);
    if (least == 0)
        must(second.refusal == 12, "no column, and not 12");
    else
        must(second.refusal == 0 && second.results[ROUNDS_RUN] < found->results[ROUNDS_RUN], "a round was run for which a column is missing");
}

/* How many answers by rounds ended early, and in how many all 29 were run. */
static uint64_t ended_early, all_run;

/* After rounds: what they found, held against other calls. */
static void after_rounds(const struct net *net, size_t s, struct asked asked, const struct answer *found, const uint8_t *plan)
{
    if (found->refusal != 0)
        return;
    ended_early += found->results[ROUNDS_RUN] < asked.r;
    more_rounds(net, s, asked, found, plan);
    if (one_in(2))
        just_enough_columns(net, s, asked, found, plan);
    if (found->results[ROUNDS_RUN] == MOST_ROUNDS) {
        all_run++;
        share_0_beside_rounds(net, s, asked, found);
    }
}

/* What every call says of a net. */
struct answers {
    struct answer checked, judged, found, by_rounds;
    uint8_t plan[MOST_STAGES], rounds_plan[MOST_STAGES];
};

static struct answers ask_all(const struct net *net, const uint8_t *plan, size_t len, struct asked asked)
{
    struct answers all = {0};
    all.checked = check(net);
    all.judged = judge(net, plan, len);
    all.found = plan_net(net, all.checked.results[STAGES], asked, all.plan);
    asked.call = ROUNDS;
    all.by_rounds = plan_net(net, all.checked.results[STAGES], asked, all.rounds_plan);
    return all;
}

/* A net without vias is answered alike in both editions, whatever follows its layers field. */
static void try_other_edition(const struct net *net, const uint8_t *plan, size_t len, struct asked asked)
{
    static struct net twin;
    if (!has_layers(net) || has_vias(net))
        return;
    copy_net(&twin, net);
    write_edition(&twin, other_tag(net));
    struct answers one = ask_all(net, plan, len, asked), other = ask_all(&twin, plan, len, asked);
    must(memcmp(&one, &other, sizeof one) == 0, "another answer than for the same net in the other edition, without vias");
    twins++;
}

/* What a plan pays for vias on a layer whose via resistance is 1: on every way at least, on any way at most. Every way begins in stage 0, pays at its root and
 * at one of its terminals; no way pays more than that in every stage. */
static void via_bounds(const struct net *net, const uint8_t *plan, size_t layer, int64_t *least, int64_t *most)
{
    struct edge edges[MOST_NODES];
    struct place places[MOST_PLACES];
    int64_t load[MOST_STAGES] = {0}, low[MOST_STAGES], high[MOST_STAGES] = {0};
    for (size_t i = 0; i < MOST_STAGES; i++)
        low[i] = INT64_MAX;
    find_places(net, 0, field_len(net->bytes), 0, places);
    int64_t unit = (int64_t)read_number(net, &places[3 * layer + 1]);
    for (size_t i = find_edges(net, edges); i > 0; i--) {
        size_t stage = edges[i - 1].stage;
        int64_t capacitance = (int64_t)edges[i - 1].capacitance;
        load[stage] += (int64_t)edges[i - 1].length * unit + capacitance;
        if (edges[i - 1].to_terminal && capacitance < low[stage])
            low[stage] = capacitance;
        if (capacitance > high[stage])
            high[stage] = capacitance;
    }
    *least = plan[0] == layer ? 2 * (load[0] + low[0]) : 0;
    *most = 0;
    for (size_t i = 0; i < MOST_STAGES; i++)
        if (low[i] != INT64_MAX && plan[i] == layer)
            *most += 2 * (load[i] + high[i]);
}

/* Raises the via resistance of a layer twice by the same. The cost stays. The slack falls each time, the second time by no less, for it is the least over ways
 * that each fall evenly; and by no less and no more than a via can cost. */
static void raise_via(const struct net *net, const struct answer *counts)
{
    static struct net other;
    uint8_t plan[MOST_STAGES];
    struct place places[MOST_PLACES];
    int64_t slack[3], least, most;
    uint64_t cost[3];
    make_whole_plan(counts, plan);
    copy_net(&other, net);
    write_edition(&other, SECOND_EDITION);
    find_places(&other, 0, field_len(other.bytes), 0, places);
    size_t layer = one_in(4) ? below(counts->results[LAYERS]) : plan[0];
    const struct place *via = &places[3 * layer + 2];
    int64_t old = (int64_t)read_number(&other, via), step = between(0, (via->high - old) / 2);
    for (int times = 0; times < 3; times++) {
        write_number(&other, via, (uint64_t)(old + times * step));
        struct answer judged = judge_rightly(&other, counts, plan, counts->results[STAGES]);
        slack[times] = (int64_t)judged.results[SLACK];
        cost[times] = judged.results[COST];
    }
    via_bounds(&other, plan, layer, &least, &most);
    must(cost[0] == cost[1] && cost[1] == cost[2], "a via resistance moves the cost");
    must(slack[0] - slack[1] <= slack[1] - slack[2], "the slack does not fall evenly, or faster, as a via resistance rises");
    must(slack[0] - slack[1] >= step * least, "the slack falls by less than what stage 0 pays for a higher via resistance");
    must(slack[1] - slack[2] <= step * most, "the slack falls by more than what all stages pay for a higher via resistance");
    raised++;
}

/* Nets of which some plan meets timing are kept in the pool, those of one stage seldom. */
static void keep_net(const struct net *net, size_t s)
{
    if (s == 1 && !one_in(10))
        return;
    if (pooled < POOL)
        copy_net(&pool[pooled++], net);
    else if (one_in(6))
        copy_net(&pool[given + below(POOL - given)], net);
}

/* After planning with a share: what was found, held against other calls. */
static void after_share(const struct net *net, size_t s, struct asked asked, const struct answer *found, const uint8_t *plan)
{
    if (found->refusal == 0) {
        planned++;
        planned_long += (uint64_t)has_long_edge(net);
        planned_vias += (uint64_t)has_vias(net);
        rounds_beside_share(net, s, asked, found, plan);
    }
    if (found->refusal == 0 || found->refusal == 12) {
        other_table(net, s, asked, found, plan);
        keep_net(net, s);
    }
}

static void try_planning(const struct known *known, int call)
{
    uint8_t plan[MOST_STAGES];
    size_t s = known->counts.results[STAGES];
    struct asked asked = make_asked(call, s);
    struct answer found = plan_rightly(known, asked, plan);
    (call == ROUNDS ? after_rounds : after_share)(known->net, s, asked, &found, plan);
}

static void try_net(void)
{
    static struct net net;
    uint8_t plan[MOST_PLAN];
    if (one_in(4))
        chart_entries(any() >> below(64), any() >> below(64));
    else
        chart_entries(below(MOST_STAGES + 3), below(CHART_SHARES + 3));
    make_net(&net);
    struct known known = {.net = &net, .counts = check_rightly(&net), .plan = plan};
    const struct answer *counts = &known.counts;
    size_t s = counts->results[STAGES];
    nets++;
    readable += counts->refusal == 0;
    if (counts->refusal == 0 && one_in(3))
        tighten(&net, counts);
    size_t len = make_plan(s, counts->results[LAYERS], plan);
    known.judged = judge_rightly(&net, counts, plan, len);
    known.in_time = counts->refusal == 0 && some_plan_in_time(&net, s);
    try_planning(&known, PLANNING);
    try_planning(&known, ROUNDS);
    if (one_in(4))
        try_layers();
    if (one_in(4))
        try_other_edition(&net, plan, len, make_asked(PLANNING, s));
    if (counts->refusal == 0 && one_in(4))
        raise_via(&net, counts);
}

/* ---- One block: the report over it, and its nets planned one by one ---- */

/* Puts a net behind the others, as a field of tag 6, if there is room for it. */
static void add_net(struct block *block, const struct net *net)
{
    uint8_t *at = block->bytes + block->len;
    if (net->len > UINT16_MAX || block->len + 3 + net->len > MOST_TRIED)
        return;
    at[0] = 6;
    at[1] = (uint8_t)(net->len >> 8);
    at[2] = (uint8_t)net->len;
    memcpy(at + 3, net->bytes, net->len);
    block->len += 3 + net->len;
}

/* Fills a block up to this length with a net of zeros, if it is shorter by a head or more. */
static void fill_block(struct block *block, size_t len)
{
    static struct net zeros;
    if (block->len + 3 > len || len > MOST_TRIED)
        return;
    zeros.len = len - block->len - 3;
    add_net(block, &zeros);
}

/* Another tag or length in some head, bytes cut off or put behind. */
static void damage_block(struct block *block)
{
    size_t at = 0, next;
    while (at < block->len && (next = at + field_len(block->bytes + at)) < block->len && !one_in(3))
        at = next;
    switch (below(5)) {
    case 0:
        block->len = below(block->len + 1);
        break;
    case 1:
        block->len -= block->len > 0;
        break;
    case 2:
        for (size_t more = 1 + below(4); more > 0 && block->len < MOST_TRIED; more--)
            block->bytes[block->len++] = 6;
        break;
    case 3:
        block->bytes[at] = (uint8_t)(one_in(2) ? below(8) : any());
        break;
    default:
        block->bytes[at + 1 + below(2)] ^= (uint8_t)(1u << below(8));
    }
}

/* The longest net of the files, the one at the limits; with its last node once more it has too many. */
static void make_large_net(struct net *net)
{
    struct fields fields;
    const struct net *longest = &pool[0];
    for (size_t i = 1; i < given; i++)
        if (pool[i].len > longest->len)
            longest = &pool[i];
    copy_net(net, longest);
    find_fields(net, &fields);
    if (one_in(2) && fields.count > 0)
        replace(net, net->len, 0, net->bytes + fields.at[fields.count - 1], net->len - fields.at[fields.count - 1]);
}

/* A net for a block: as any other, but more often one that is refused with 4 or 12, or one of no bytes. */
static void make_net_of_block(struct net *net)
{
    if (one_in(50))
        make_large_net(net);
    else
        make_net(net);
    if (one_in(20))
        net->len = 0;
}

/* A block to try: mostly few nets, now and then a block about as long as one can be; one in four is damaged. */
static void make_block(struct block *block)
{
    static struct net net;
    block->len = 0;
    for (size_t nets = below(one_in(10) ? 40 : 6); nets > 0; nets--) {
        make_net_of_block(&net);
        add_net(block, &net);
    }
    if (one_in(20))
        fill_block(block, MOST_BLOCK - 1 + below(3));
    if (one_in(4))
        damage_block(block);
}

/* Whether the bytes are a block, by a walk of our own. */
static int is_block(const struct block *block)
{
    if (block->len > MOST_BLOCK)
        return 0;
    for (size_t at = 0, left; (left = block->len - at) > 0; at += field_len(block->bytes + at))
        if (left < 3 || block->bytes[at] != 6 || left < field_len(block->bytes + at))
            return 0;
    return 1;
}

/* Adds each edge's length to that of the layer on which the plan has it, and gives their sum. */
static uint64_t add_lengths(const struct net *net, const uint8_t *plan, uint64_t *lengths)
{
    struct edge edges[MOST_NODES];
    uint64_t wire = 0;
    for (size_t i = find_edges(net, edges); i > 0; i--) {
        lengths[plan[edges[i - 1].stage]] += edges[i - 1].length;
        wire += edges[i - 1].length;
    }
    return wire;
}

/* The totals of a block by planning its nets one by one, as the program does; and the wire of those that were planned. */
static struct vorphiel_totals plan_each(const struct block *block, uint64_t *wire)
{
    static struct net net;
    struct vorphiel_totals totals = {0};
    const struct asked asked = {.call = PLANNING, .p = 1, .q = 4, .entries = 8192, .buffer = MOST_STAGES};
    uint8_t plan[MOST_STAGES];
    for (size_t at = 0; at < block->len; at += 3 + net.len) {
        net.len = field_len(block->bytes + at) - 3;
        memcpy(net.bytes, block->bytes + at + 3, net.len);
        struct answer counts = check_rightly(&net);
        struct answer found = plan_net(&net, counts.results[STAGES], asked, plan);
        totals.nets++;
        if (found.refusal != 0) {
            totals.refused[found.refusal]++;
            continue;
        }
        totals.planned++;
        totals.cost += found.results[COST];
        *wire += add_lengths(&net, plan, totals.lengths);
    }
    return totals;
}

static uint64_t sum(const uint64_t *numbers, size_t count)
{
    uint64_t total = 0;
    for (size_t i = 0; i < count; i++)
        total += numbers[i];
    return total;
}

/* Whether two totals are the same in every number. */
static int same_totals(const struct vorphiel_totals *one, const struct vorphiel_totals *other)
{
    return one->refusal == other->refusal && one->nets == other->nets && one->planned == other->planned && one->cost == other->cost &&
           memcmp(one->refused, other->refused, sizeof one->refused) == 0 && memcmp(one->lengths, other->lengths, sizeof one->lengths) == 0;
}

/* How many blocks were refused with 13, how many were not; and the counts of the latter, added up. */
static uint64_t no_blocks, blocks;
static struct vorphiel_totals told;

static void add_told(const struct vorphiel_totals *totals)
{
    told.planned += totals->planned;
    for (int number = 0; number <= 12; number++)
        told.refused[number] += totals->refused[number];
    for (int layer = 0; layer < MOST_LAYERS; layer++)
        told.lengths[layer] += totals->lengths[layer];
}

static void try_block(void)
{
    static struct block block;
    uint64_t wire = 0;
    make_block(&block);
    int whole = is_block(&block);
    struct vorphiel_totals due = {.refusal = 13};
    if (whole)
        due = plan_each(&block, &wire);
    struct vorphiel_totals found = report(&block);
    must(found.refusal == due.refusal, "vorphiel_report: not the refusal that is due");
    must(whole || same_totals(&found, &due), "a total that is not 0 after 13");
    must(found.nets == found.planned + sum(found.refused, 13), "planned and refused nets do not add up to the nets");
    must(sum(found.lengths, MOST_LAYERS) == wire, "the lengths over layers do not add up to the wire of the planned nets");
    must(same_totals(&found, &due), "not the totals of the nets planned one by one");
    blocks += whole;
    no_blocks += !whole;
    add_told(&found);
}

/* ---- One desk: runs of calls on it, and what a list of layers and locks would do ---- */

/* The list: the net of the last accepted opening, its counts (0 before the first), each stage's layer and lock. */
struct list {
    struct net net;
    struct answer counts;
    uint8_t layers[MOST_STAGES], locks[MOST_STAGES];
};

static struct list list;

static void put_results(const uint64_t *results, int count)
{
    for (int i = 0; i < count; i++)
        memcpy(result(i), &results[i], sizeof results[i]);
}

/* Makes the call with what was lent; its results go where those of other calls are. */
static unsigned ask_desk(int call, uint64_t stage, uint64_t layer)
{
    struct vorphiel_desk *at = (struct vorphiel_desk *)(void *)lent[DESK].at;
    if (call == DESK_OPEN) {
        struct vorphiel_checked opened = vorphiel_desk_open(at, lent[NET].at, lent[NET].len);
        put_results((const uint64_t[]){opened.nodes, opened.stages, opened.layers}, 3);
        return opened.refusal;
    }
    if (call == DESK_READ) {
        struct vorphiel_judged read = vorphiel_desk_read(at);
        put_results((const uint64_t[]){read.cost, (uint64_t)read.slack}, 2);
        return read.refusal;
    }
    if (call == DESK_SET)
        return vorphiel_desk_set(at, stage, layer);
    return call == DESK_LOCK ? vorphiel_desk_lock(at, stage) : vorphiel_desk_unlock(at, stage);
}

/* Makes a call on a copy of the desk, which reading cannot write; with the net to be opened, or that of the list. A
 * refusal leaves every byte. */
static struct answer call_desk(int call, const struct net *net, uint64_t stage, uint64_t layer)
{
    int reading = call == DESK_READ;
    lend(&lent[DESK], &desk, sizeof desk);
    if (reading)
        protect(&lent[DESK], PROT_READ);
    now.stage = stage;
    now.layer = layer;
    begin(call, net);
    struct answer answer = finish(ask_desk(call, stage, layer), call == DESK_OPEN ? 3 : reading ? 2 : 0);
    if (reading)
        protect(&lent[DESK], PROT_READ | PROT_WRITE);
    must(margins_kept(&lent[DESK]), "bytes beside the desk were changed");
    must(answer.refusal == 0 || memcmp(lent[DESK].at, &desk, sizeof desk) == 0, "a refusal changed the desk");
    return answer;
}

/* The desk is what the call left. */
static void keep_desk(void)
{
    memcpy(&desk, lent[DESK].at, sizeof desk);
}

/* What is due: the header's numbers in their order, the counts of checking, the cost and slack of judging. */
static struct answer desk_answer(int call, const struct net *net, uint64_t stage, uint64_t layer)
{
    const uint64_t *counts = list.counts.results;
    if (call == DESK_OPEN)
        return net->len <= MOST_DESK_NET ? check_rightly(net) : (struct answer){.refusal = 15};
    if (counts[STAGES] == 0)
        return (struct answer){.refusal = 16};
    if (call == DESK_READ)
        return judge_rightly(&list.net, &list.counts, list.layers, counts[STAGES]);
    if (stage >= counts[STAGES])
        return (struct answer){.refusal = 7};
    if (call == DESK_SET && layer >= counts[LAYERS])
        return (struct answer){.refusal = 8};
    return (struct answer){.refusal = call == DESK_SET && list.locks[stage] ? 17 : 0};
}

/* What an accepted call does to the list. */
static void change_list(int call, const struct net *net, const struct answer *answer, uint64_t stage, uint64_t layer)
{
    if (call == DESK_OPEN) {
        copy_net(&list.net, net);
        list.counts = *answer;
        memset(list.layers, 0, sizeof list.layers);
        memset(list.locks, 0, sizeof list.locks);
    } else if (call == DESK_SET) {
        list.layers[stage] = (uint8_t)layer;
    } else if (call != DESK_READ) {
        list.locks[stage] = call == DESK_LOCK;
    }
}

/* Whether a host that looks at the desk sees the list. */
static int shows_list(void)
{
    const struct vorphiel_desk *seen = (const struct vorphiel_desk *)(void *)lent[DESK].at;
    const uint64_t *counts = list.counts.results;
    return seen->stages == counts[STAGES] && seen->layers == counts[LAYERS] &&
           memcmp(seen->plan, list.layers, counts[STAGES]) == 0 && memcmp(seen->locks, list.locks, counts[STAGES]) == 0;
}

static void call_desk_rightly(int call, const struct net *net, uint64_t stage, uint64_t layer)
{
    struct answer due = desk_answer(call, net, stage, layer), found = call_desk(call, net, stage, layer);
    must(found.refusal == due.refusal, "not the refusal that is due");
    must(memcmp(&found, &due, sizeof due) == 0, "not the counts of checking, or not the cost and slack of judging");
    if (found.refusal == 0)
        change_list(call, net, &found, stage, layer);
    must(shows_list(), "the desk does not show the layers and locks that a list would have");
}

/* A net of 64 stages that with 8 layers has as many bytes as a desk takes, 4,096; one more buffer is too many. */
static void grow_desk_net(struct net *net, size_t layers, size_t buffers)
{
    const size_t points = 13, sinks = 5;
    struct growing g = {.net = net, .layers = layers, .scale = between(1, 1000)};
    net->len = 0;
    add_field(&g, SECOND_EDITION, 0);
    add_field(&g, 2, 0);
    for (size_t parent = 0; parent < points + buffers; parent++)
        add_node(&g, parent < points ? 3 : 4, parent);
    add_node(&g, 5, g.nodes);
    for (size_t parent = 1; parent <= sinks; parent++)
        add_node(&g, 5, parent);
}

/* A net for a desk: as any other, but more often one at the limits, refused with 4, or too long. */
static void make_net_of_desk(struct net *net)
{
    if (one_in(6))
        grow_desk_net(net, one_in(2) ? 8 : 1 + below(8), MOST_STAGES - 1 + (size_t)one_in(3));
    else if (one_in(12))
        make_large_net(net);
    else
        make_net(net);
    if (one_in(12) && net->len <= MOST_DESK_NET)
        replace(net, net->len, 0, (const uint8_t *)rubbish, MOST_DESK_NET + below(2) - net->len);
}

/* A number, mostly below the limit; or near it or anywhere, or one whose last 8 or 32 bits alone are below it. */
static uint64_t some_below(uint64_t limit)
{
    uint64_t number = limit == 0 ? 0 : below(limit);
    return !one_in(4) ? number : one_in(2) ? wild_number(limit) : number + (one_in(2) ? 256 : UINT64_C(1) << 32);
}

/* Something written over the desk: all of it, a count, a layer, a lock, a byte of the net, or any byte. */
static void spoil_desk(void)
{
    switch (below(8)) {
    case 0: memcpy(&desk, some_rubbish(), sizeof desk); break;
    case 1: desk.used = wild_number(MOST_DESK_NET); break;
    case 2: desk.stages = wild_number(MOST_STAGES); break;
    case 3: desk.layers = wild_number(MOST_LAYERS); break;
    case 4: desk.plan[below(MOST_STAGES)] = one_in(2) ? 255 : (uint8_t)any(); break;
    case 5: desk.locks[below(MOST_STAGES)] = one_in(2) ? 255 : (uint8_t)any(); break;
    case 6: desk.net[below(one_in(2) ? 100 : MOST_DESK_NET)] ^= (uint8_t)(1u << below(8)); break;
    default: ((uint8_t *)&desk)[below(sizeof desk)] = (uint8_t)any();
    }
}

/* One call: on a desk that only the calls altered it does what the list does; on another it stays within the desk. */
static void one_desk_call(void)
{
    static struct net net;
    int call = one_in(list.counts.results[STAGES] == 0 ? 2 : 8) ? DESK_OPEN : DESK_SET + (int)below(4);
    const struct net *given_net = call == DESK_OPEN ? &net : &list.net;
    uint64_t stage = some_below(now.spoilt ? MOST_STAGES : list.counts.results[STAGES]);
    uint64_t layer = some_below(now.spoilt ? MOST_LAYERS : list.counts.results[LAYERS]);
    if (call == DESK_OPEN)
        make_net_of_desk(&net);
    if (now.spoilt)
        call_desk(call, given_net, stage, layer);
    else
        call_desk_rightly(call, given_net, stage, layer);
    keep_desk();
}

/* A run of calls on a desk that was cleared; now and then a copy is kept, or put back. Then it is written over. */
static void try_desk(void)
{
    static struct vorphiel_desk kept;
    static struct list kept_list;
    memset(&desk, 0, sizeof desk);
    memset(&list, 0, sizeof list);
    kept = desk;
    kept_list = list;
    for (size_t turns = below(50); turns > 0; turns--) {
        one_desk_call();
        if (one_in(16)) {
            kept = desk;
            kept_list = list;
        } else if (one_in(32)) {
            desk = kept;
            list = kept_list;
        }
    }
    now.spoilt = 1;
    for (size_t turns = below(20); turns > 0; turns--) {
        if (one_in(2))
            spoil_desk();
        one_desk_call();
    }
    now.spoilt = 0;
}

/* ---- The run ---- */

static void read_net(const char *name)
{
    struct net *net = &pool[pooled];
    FILE *file = fopen(name, "rb");
    if (file != NULL)
        net->len = fread(net->bytes, 1, MOST_NET, file);
    if (file == NULL || ferror(file)) {
        fprintf(stderr, "fuzz: %s: %s\n", name, strerror(errno));
        exit(2);
    }
    fclose(file);
    given = ++pooled;
}

/* One line for a call: how often it gave each number; how many of its numbers it never gave. */
static int print_met(int call)
{
    int missing = 0;
    printf("%-20s accepted %" PRIu64 "; refused", CALL_NAMES[call], met[call][0]);
    for (unsigned number = 0; number < NUMBERS; number++) {
        if (!(ALLOWED[call] >> number & 1))
            continue;
        missing += met[call][number] == 0;
        if (number > 0)
            printf("  %u: %" PRIu64, number, met[call][number]);
    }
    printf("\n");
    return missing;
}

/* One line for the desks that were written over: which numbers the calls gave on them. */
static void print_spoilt(void)
{
    printf("desks written over   accepted %" PRIu64 "; refused", met_spoilt[0]);
    for (unsigned number = 1; number < NUMBERS; number++)
        if (ALLOWED_SPOILT >> number & 1)
            printf("  %u: %" PRIu64, number, met_spoilt[number]);
    printf("\n");
}

/* One line for the report: how often it gave 13, and how many nets it told of with each number; how many of these it never gave. */
static int print_told(void)
{
    int missing = (blocks == 0) + (no_blocks == 0) + (told.planned == 0);
    printf("%s accepted %" PRIu64 "; refused  13: %" PRIu64 "; of its nets planned %" PRIu64 "; refused", CALL_NAMES[REPORT], blocks, no_blocks, told.planned);
    for (unsigned number = 1; number <= 12; number++) {
        if (number >= 7 && number <= 10)
            continue; /* the plan and the share are the report's own */
        missing += told.refused[number] == 0;
        printf("  %u: %" PRIu64, number, told.refused[number]);
    }
    int layers = 0;
    for (int layer = 0; layer < MOST_LAYERS; layer++)
        layers += told.lengths[layer] > 0;
    printf("; wire on %d layers\n", layers);
    return missing;
}

/* One line for the layers fields of the second edition; how many of their numbers were never given. */
static int print_second_edition(void)
{
    int missing = 0;
    printf("layers of tag %d without fault %" PRIu64 "; refused", SECOND_EDITION, second_edition[0]);
    for (unsigned number = 0; number <= 3; number++) {
        missing += second_edition[number] == 0;
        if (number > 0)
            printf("  %u: %" PRIu64, number, second_edition[number]);
    }
    printf("\n");
    return missing;
}

static void print_summary(void)
{
    printf("seed %" PRIu64 ": %" PRIu64 " calls on %" PRIu64 " nets; ", now.seed, now.number, nets);
    printf("%.0f%% of these can be read, %.0f%% were planned", 100.0 * (double)readable / (double)nets, 100.0 * (double)planned / (double)nets);
    printf(", %" PRIu64 " of them with an edge above 1,000, %" PRIu64 " with vias\n", planned_long, planned_vias);
    printf("%" PRIu64 " nets were tried in both editions, of %" PRIu64 " a via resistance was raised\n", twins, raised);
    printf("of %" PRIu64 " nets the rounds ended early, of %" PRIu64 " all %d were run\n", ended_early, all_run, MOST_ROUNDS);
    int missing = 0;
    for (int call = 0; call < CALLS; call++)
        missing += print_met(call);
    print_spoilt();
    missing += print_second_edition();
    missing += print_told();
    printf("%s on the chart %" PRIu64 "; off it %" PRIu64 "\n", CALL_NAMES[TABLE_ENTRIES], charted, uncharted);
    if (missing == 0)
        printf("every number of every call was met\n");
    else
        printf("%d numbers were never met\n", missing);
}

static int is_number(const char *text, uint64_t *value)
{
    errno = 0;
    *value = strtoull(text, NULL, 10);
    return text[0] != '\0' && text[strspn(text, "0123456789")] == '\0' && errno == 0;
}

int main(int count, char **arguments)
{
    uint64_t length;
    if (count < 4 || count - 3 >= POOL || !is_number(arguments[1], &now.seed) || !is_number(arguments[2], &length)) {
        fputs("usage: fuzz SEED SECONDS NET...\n", stderr);
        return 2;
    }
    random_state = now.seed;
    for (size_t i = 0; i < sizeof rubbish / sizeof rubbish[0]; i++)
        rubbish[i] = any() | 1;
    for (int i = 3; i < count; i++)
        read_net(arguments[i]);
    make_all_lent();
    set_signals();
    if (vorphiel_desk_size() != sizeof desk) {
        printf("# fuzz: the library's desk has not %zu bytes, but %" PRIu64 "\n", sizeof desk, vorphiel_desk_size());
        return 1;
    }
    do {
        try_net();
        if (one_in(20))
            try_block();
        if (one_in(4))
            try_desk();
    } while ((uint64_t)seconds < length);
    print_summary();
    return 0;
}
