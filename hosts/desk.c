/* A host in C: a desk for hand changes, by commands on standard input. HELP below says how it is used, what it prints
 * and its exit statuses.
 *
 * Build: cc -std=c11 -Wall -Wextra -Werror -I include hosts/desk.c target/staticlib/libvorphiel.a -o desk */
#define HOST "desk"
#include "host.h"

#include <unistd.h>

#define COMMAND_LINES \
    "  open FILE        opens the net in a file: every stage on layer 0, unlocked\n" \
    "  set STAGE LAYER  moves a stage to a layer\n" \
    "  lock STAGE       locks a stage, so that it cannot be moved\n" \
    "  unlock STAGE     unlocks it\n" \
    "  show             prints cost, slack and the layer of each stage; * marks one that is locked\n" \
    "  help             prints these lines\n" \
    "  quit             ends, as the end of the input does\n"

static const char HELP[] =
    "usage: desk [--echo]\n"
    "       desk --help | --version\n"
    "\n"
    "A desk for hand changes: opens a net, moves its stages from layer to layer, and tells what that does to cost and\n"
    "slack. It reads commands from standard input, a line each:\n"
    "\n"
    COMMAND_LINES
    "\n"
    "FILE is the rest of the line, blanks within it too. A net is bytes, for a desk at most 4,096; nets/hex.py makes them\n"
    "of text. Stages and layers are numbered from 0. Empty lines and lines that begin with # are passed over.\n"
    "\n"
    "  --echo      prints each line before its answer, where standard input is no terminal\n"
    "  --help      prints this\n"
    "  --version   prints the version of the library\n"
    "\n"
    "Opening prints the counts of the net, moving a stage the cost and slack with what they changed by. For net B:\n"
    "\n"
    "  > open b.net\n"
    "  nodes 3 stages 2 layers 2\n"
    "  cost 22 slack -600: timing not met\n"
    "  > set 0 1\n"
    "  cost 32 (+10) slack 0 (+600): timing met\n"
    "  > lock 0\n"
    "  stage 0 on layer 1, locked\n"
    "  > show\n"
    "  cost 32 slack 0: timing met\n"
    "  stage   0   1\n"
    "  layer  *1   0\n"
    "\n"
    "and for a refusal its number, with what that means on standard error; the desk is then as it was:\n"
    "\n"
    "  > set 0 0\n"
    "  refused 17\n"
    "  desk: stage 0 is locked; unlock 0 unlocks it\n"
    "\n"
    "What is wrong with a line that is no command is said there too, with the line's number. The next line is then taken.\n"
    "\n"
    "Exit status: 0 at the end; 2 for wrong use, input that cannot be read, output that cannot be written.\n";

/* The most bytes of a line, and the most numbers of a command. */
enum { MOST_LINE = 4095, MOST_NUMBERS = 2 };

/* How many stages stand in a row of what is shown. */
enum { IN_ROW = 16 };

static const char PROMPT[] = "> ";
static const char BLANKS[] = " \t\r";

/* A line that is at hand, cut to the most bytes: its number, its length, and what it gives to its command. */
struct line {
    uint64_t number;
    size_t len;
    char text[MOST_LINE + 1];
    const char *file;
    uint64_t numbers[MOST_NUMBERS];
};

/* The desk is cleared at first: never opened. */
struct dialogue {
    int is_terminal, is_echoed, is_over, status;
    struct line line;
    struct vorphiel_desk desk;
    struct input net;
};

/* A command: its word, its form, and how many numbers it takes, or that it takes a file. */
enum { A_FILE = -1 };
struct command {
    const char *word, *form;
    int takes;
    void (*obey)(struct dialogue *dialogue);
};

/* Says what is wrong with the line. */
static void say_wrong(const struct dialogue *dialogue, const char *subject, const char *words)
{
    fprintf(stderr, HOST ": line %" PRIu64 ": %s: %s\n", dialogue->line.number, subject, words);
}

/* Says that there is no stage or layer of this number, and which there are. */
static void say_none(const char *kind, uint64_t number, uint64_t count)
{
    fprintf(stderr, HOST ": no %s %" PRIu64 "; ", kind, number);
    if (count == 1)
        fprintf(stderr, "the only %s is 0\n", kind);
    else
        fprintf(stderr, "the %ss are 0 to %" PRIu64 "\n", kind, count - 1);
}

/* Whether a call was accepted. If not, its number is printed, before more is said. */
static int is_accepted(uint8_t refusal)
{
    if (refusal == 0)
        return 1;
    printf("refused %d\n", refusal);
    fflush(stdout);
    return 0;
}

/* Whether a call on the open desk was accepted. If not, it is said what that means for the numbers of the line. */
static int is_done(const struct dialogue *dialogue, uint8_t refusal)
{
    const uint64_t *numbers = dialogue->line.numbers;
    if (is_accepted(refusal))
        return 1;
    if (refusal == 7)
        say_none("stage", numbers[0], dialogue->desk.stages);
    else if (refusal == 8)
        say_none("layer", numbers[1], dialogue->desk.layers);
    else if (refusal == 17)
        fprintf(stderr, HOST ": stage %" PRIu64 " is locked; unlock %" PRIu64 " unlocks it\n", numbers[0], numbers[0]);
    else
        fprintf(stderr, HOST ": %s; open FILE opens it\n", refusal_words(refusal));
    return 0;
}

static const char *timing(int64_t slack)
{
    return slack >= 0 ? "timing met" : "timing not met";
}

/* Prints cost and slack; 0 if there are none. */
static int is_read(const struct dialogue *dialogue)
{
    struct vorphiel_judged now = vorphiel_desk_read(&dialogue->desk);
    if (!is_done(dialogue, now.refusal))
        return 0;
    printf("cost %" PRIu64 " slack %" PRId64 ": %s\n", now.cost, now.slack, timing(now.slack));
    return 1;
}

static void obey_open(struct dialogue *dialogue)
{
    struct input *net = &dialogue->net;
    int error = read_bytes(dialogue->line.file, 0, net);
    if (error != 0) {
        say_wrong(dialogue, net->name, strerror(error));
        return;
    }
    struct vorphiel_checked counts = vorphiel_desk_open(&dialogue->desk, net->at, net->len);
    if (is_accepted(counts.refusal)) {
        printf("nodes %" PRIu64 " stages %" PRIu64 " layers %" PRIu64 "\n", counts.nodes, counts.stages, counts.layers);
        is_read(dialogue);
    } else {
        say_no_net(net, counts.refusal);
    }
}

/* Prints cost and slack with what they changed by. A cost is at most 255,000,000 and a slack within 2.2 x 10^18 of 0,
 * so 64 bits hold every difference. */
static void obey_set(struct dialogue *dialogue)
{
    const uint64_t *numbers = dialogue->line.numbers;
    struct vorphiel_judged before = vorphiel_desk_read(&dialogue->desk);
    if (!is_done(dialogue, vorphiel_desk_set(&dialogue->desk, numbers[0], numbers[1])))
        return;
    struct vorphiel_judged now = vorphiel_desk_read(&dialogue->desk);
    printf("cost %" PRIu64 " (%+" PRId64 ") slack %" PRId64 " (%+" PRId64 "): %s\n", now.cost,
           (int64_t)now.cost - (int64_t)before.cost, now.slack, now.slack - before.slack, timing(now.slack));
}

/* Prints how the line's stage stands after locking or unlocking, if that was accepted. */
static void print_stage(const struct dialogue *dialogue, uint8_t refusal)
{
    uint64_t stage = dialogue->line.numbers[0];
    if (is_done(dialogue, refusal))
        printf("stage %" PRIu64 " on layer %d, %s\n", stage, dialogue->desk.plan[stage],
               dialogue->desk.locks[stage] ? "locked" : "unlocked");
}

static void obey_lock(struct dialogue *dialogue)
{
    print_stage(dialogue, vorphiel_desk_lock(&dialogue->desk, dialogue->line.numbers[0]));
}

static void obey_unlock(struct dialogue *dialogue)
{
    print_stage(dialogue, vorphiel_desk_unlock(&dialogue->desk, dialogue->line.numbers[0]));
}

/* Prints a row of stages, and under them their layers. */
static void print_row(const struct vorphiel_desk *desk, uint64_t first)
{
    uint64_t end = desk->stages - first > IN_ROW ? first + IN_ROW : desk->stages;
    printf("stage");
    for (uint64_t stage = first; stage < end; stage++)
        printf("%4" PRIu64, stage);
    printf("\nlayer");
    for (uint64_t stage = first; stage < end; stage++)
        printf("%*s%d", desk->plan[stage] < 10 ? 3 : 2, desk->locks[stage] ? "*" : "", desk->plan[stage]);
    printf("\n");
}

static void obey_show(struct dialogue *dialogue)
{
    if (is_read(dialogue))
        for (uint64_t first = 0; first < dialogue->desk.stages; first += IN_ROW)
            print_row(&dialogue->desk, first);
}

static void obey_help(struct dialogue *dialogue)
{
    (void)dialogue;
    fputs(COMMAND_LINES, stdout);
}

static void obey_quit(struct dialogue *dialogue)
{
    dialogue->is_over = 1;
}

static const struct command COMMANDS[] = {
    {"open", "open FILE", A_FILE, obey_open},
    {"set", "set STAGE LAYER", 2, obey_set},
    {"lock", "lock STAGE", 1, obey_lock},
    {"unlock", "unlock STAGE", 1, obey_unlock},
    {"show", "show", 0, obey_show},
    {"help", "help", 0, obey_help},
    {"quit", "quit", 0, obey_quit},
};

/* The command that a word names, or NULL. */
static const struct command *command_of(const char *word)
{
    for (size_t i = 0; i < sizeof COMMANDS / sizeof COMMANDS[0]; i++)
        if (strcmp(COMMANDS[i].word, word) == 0)
            return &COMMANDS[i];
    return NULL;
}

/* The text without the blanks at both ends. */
static char *trimmed(char *text)
{
    size_t len = strlen(text);
    while (len > 0 && strchr(BLANKS, text[len - 1]) != NULL)
        text[--len] = '\0';
    return text + strspn(text, BLANKS);
}

/* Ends a text after its first word: what follows that, from its first byte that is no blank. */
static char *after_word(char *text)
{
    char *rest = text + strcspn(text, BLANKS);
    if (*rest != '\0')
        *rest++ = '\0';
    return rest + strspn(rest, BLANKS);
}

/* Whether the rest of the line is what its command takes, which is read; it is said if it is not. */
static int is_of_form(struct dialogue *dialogue, const struct command *command, char *rest)
{
    int count = 0;
    dialogue->line.file = rest;
    if (command->takes == A_FILE && *rest != '\0')
        return 1;
    while (*rest != '\0' && count < command->takes) {
        char *word = rest;
        rest = after_word(word);
        if (!is_number(word, &dialogue->line.numbers[count++])) {
            say_wrong(dialogue, word, "no number from 0 to 18446744073709551615");
            return 0;
        }
    }
    if (*rest == '\0' && count == command->takes)
        return 1;
    say_wrong(dialogue, "the form is", command->form);
    return 0;
}

static void obey(struct dialogue *dialogue)
{
    char *word = trimmed(dialogue->line.text), *rest = after_word(word);
    const struct command *command = command_of(word);
    if (command == NULL)
        say_wrong(dialogue, word, "no such command; help lists them");
    else if (is_of_form(dialogue, command, rest))
        command->obey(dialogue);
}

/* Writes what was printed; if that cannot be, the dialogue is over. */
static void write_out(struct dialogue *dialogue)
{
    dialogue->status = written(DONE);
    if (dialogue->status != DONE)
        dialogue->is_over = 1;
}

/* Prints the line as it was read, a command after a prompt. */
static void echo(struct dialogue *dialogue, int is_passed)
{
    printf("%s%s\n", is_passed ? "" : PROMPT, dialogue->line.text);
    write_out(dialogue);
}

/* Passes the line over, obeys it, or says what is wrong with it. */
static void take_line(struct dialogue *dialogue)
{
    struct line *line = &dialogue->line;
    char first = line->text[strspn(line->text, BLANKS)];
    int is_whole = line->len == strlen(line->text), is_passed = first == '#' || (first == '\0' && is_whole);
    if (dialogue->is_echoed && !dialogue->is_terminal)
        echo(dialogue, is_passed);
    if (dialogue->is_over || is_passed)
        return;
    if (line->len > MOST_LINE)
        say_wrong(dialogue, "too long", "a line has at most 4,095 bytes");
    else if (!is_whole)
        say_wrong(dialogue, "no text", "it has a byte 0");
    else
        obey(dialogue);
}

/* Reads a line, without its end, after a prompt if a person writes it; 0 at the end of the input. */
static int has_line(struct dialogue *dialogue)
{
    struct line *line = &dialogue->line;
    if (dialogue->is_terminal) {
        fputs(PROMPT, stdout);
        fflush(stdout);
    }
    int byte = getchar();
    if (byte == EOF)
        return 0;
    for (line->len = 0; byte != EOF && byte != '\n'; byte = getchar())
        if (line->len++ < MOST_LINE)
            line->text[line->len - 1] = (char)byte;
    line->text[line->len < MOST_LINE ? line->len : MOST_LINE] = '\0';
    line->number++;
    return 1;
}

/* Takes lines until it is over or the input ends; each is answered before the next is read. */
static int run(struct dialogue *dialogue)
{
    while (!dialogue->is_over && has_line(dialogue)) {
        take_line(dialogue);
        if (!dialogue->is_over)
            write_out(dialogue);
    }
    if (ferror(stdin))
        return not_tried("standard input", strerror(errno));
    if (dialogue->is_terminal && !dialogue->is_over)
        printf("\n");
    return dialogue->status == DONE ? written(DONE) : dialogue->status;
}

static int read_arguments(int count, char **arguments, struct dialogue *dialogue)
{
    for (int i = 1; i < count; i++) {
        if (strcmp(arguments[i], "--echo") != 0)
            return not_tried(arguments[i], "no such argument; nets are opened by commands, see " HOST " --help");
        dialogue->is_echoed = 1;
    }
    return 0;
}

int main(int count, char **arguments)
{
    static struct dialogue dialogue;
    if (!is_one_version())
        return NOT_TRIED;
    if (is_answered(count, arguments, HELP))
        return written(DONE);
    int fault = read_arguments(count, arguments, &dialogue);
    dialogue.is_terminal = isatty(STDIN_FILENO);
    return fault == 0 ? run(&dialogue) : fault;
}
