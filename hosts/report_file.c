/* A host in C: reports over the block that a file holds. HELP below says how it is used, what it prints, which is the
 * text of the program block_report, and its exit statuses.
 *
 * Build: cc -std=c11 -Wall -Wextra -Werror -I include hosts/report_file.c target/staticlib/libvorphiel.a -o report_file */
#define HOST "report_file"
#include "host.h"

static const char HELP[] =
    "usage: report_file BLOCK\n"
    "       report_file --help | --version\n"
    "\n"
    "Plans each net of the block in the file BLOCK, with share 1/4 and a table of 8,192 entries, and prints the totals.\n"
    "A block is bytes, at most 65,536; nets/hex.py makes them of text. BLOCK may be - for standard input; a file -NAME is\n"
    "given as ./-NAME.\n"
    "\n"
    "  --help      prints this\n"
    "  --version   prints the version of the library\n"
    "\n"
    "Printed are, a line each:\n"
    "\n"
    "  nets N       the nets in the block\n"
    "  planned N    those for which a plan was found\n"
    "  refused R N  those refused with number R, a line for each R met\n"
    "  cost C       what the plans found cost, together\n"
    "  length L W   their wire on layer L, a line for each layer that has any\n"
    "\n"
    "and for a file that is no block a refusal, with what that means on standard error:\n"
    "\n"
    "  refused 13\n"
    "\n"
    "Exit status: 0 reported; 1 refused; 2 not tried: wrong use, a file that cannot be read, output that cannot be\n"
    "written.\n";

enum { NET_NUMBERS = 13, MOST_LAYERS = 16 };

/* A line for each refusal number or layer for which something was counted. */
static void print_met(const char *word, const uint64_t *counted, int end)
{
    for (int number = 0; number < end; number++)
        if (counted[number] > 0)
            printf("%s %d %" PRIu64 "\n", word, number, counted[number]);
}

static void print_totals(const struct vorphiel_totals *totals)
{
    printf("nets %" PRIu64 "\nplanned %" PRIu64 "\n", totals->nets, totals->planned);
    print_met("refused", totals->refused, NET_NUMBERS);
    printf("cost %" PRIu64 "\n", totals->cost);
    print_met("length", totals->lengths, MOST_LAYERS);
}

/* Says why bytes are no block, and what to do: perhaps they are text, or a single net. */
static void say_no_block(const struct input *block, uint8_t refusal)
{
    uint64_t nodes, stages, layers;
    if (looks_like_text(block)) {
        say(block->name, "looks like text, and a block is bytes");
        say_command("to make them of a net's text", "block", block, "block");
        say_command("to make them of a block's text", "bytes", block, "block");
    } else if (vorphiel_check(block->at, block->len, &nodes, &stages, &layers) == 0) {
        say(block->name, "a single net and no block of nets");
        fprintf(stderr, HOST ": plan_file %s plans it; in a block the bytes 06 %02zX %02zX stand before it\n",
                block->argument, block->len / 256, block->len % 256);
    } else {
        say_fault(block, refusal);
    }
}

static int report_and_print(const struct input *block)
{
    struct vorphiel_totals totals = vorphiel_report(block->at, block->len);
    if (totals.refusal == 0) {
        print_totals(&totals);
    } else {
        printf("refused %d\n", totals.refusal);
        say_no_block(block, totals.refusal);
    }
    return written(totals.refusal == 0 ? DONE : REFUSED);
}

int main(int count, char **arguments)
{
    static struct input block;
    struct given given = {0};
    int fault = 0;
    if (!is_one_version())
        return NOT_TRIED;
    if (is_answered(count, arguments, HELP))
        return written(DONE);
    for (int i = 1; i < count && fault == 0; i++)
        fault = take(arguments[i], 1, &given);
    if (fault == 0)
        fault = given.at[0] != NULL ? read_input(given.at[0], &block) : no_file();
    return fault == 0 ? report_and_print(&block) : fault;
}
