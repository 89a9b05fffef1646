/* What the hosts in C share: their arguments, the bytes of a file or of standard input, the library's version, and
 * what is said on standard error. A host defines HOST, its own name, before it includes this file. What not every host
 * uses is inline, so that no compiler warns of it. */
#ifndef HOST_H
#define HOST_H

#include "vorphiel.h"

#include <errno.h>
#include <inttypes.h>
#include <stdio.h>
#include <stdlib.h>
#include <string.h>

/* The exit statuses. */
enum { DONE = 0, REFUSED = 1, NOT_TRIED = 2 };

/* How many bytes are read at most. Those that follow change no answer: 20,598 bytes settle what is wrong with a net,
 * and 65,537 whether there is a block. They are more so that a long text is known as one. */
enum { MOST_BYTES = 1 << 20 };

/* What was read, with the argument that says where, and the name for that in messages. */
struct input {
    int is_standard;
    const char *argument, *name;
    size_t len;
    uint8_t at[MOST_BYTES];
};

/* The tag with which a block begins. */
enum { BLOCK_TAG = 6 };

/* The arguments that are no options; NULL where there is none. */
enum { MOST_GIVEN = 3 };
struct given {
    int count;
    const char *at[MOST_GIVEN];
};

static const char *refusal_words(uint8_t refusal)
{
    static const char *const WORDS[] = {
        "accepted",
        "a field is due and fewer than three bytes are left, or its payload is not all there",
        "a tag that is not allowed there, or a length that its kind does not have",
        "a number outside its range",
        "a 256th node after the driver, or a 64th buffer",
        "a bad parent: not a lower number, a sink, or one that has two children already",
        "a childless node that is no sink",
        "the plan's length is not the number of stages",
        "a layer number that is not below the layer count",
        "the share is out of range: P is at most 1,000 and Q is 1 to 1,000",
        "the plan buffer is shorter than the number of stages",
        "no plan of this net meets timing; allow more time, or change the net",
        "the table has too few columns; lend a longer one, or ask for a larger share",
        "no block: more than 65,536 bytes, a field of another tag than 6, or cut short",
        "the number of rounds is outside 1 to 29",
        "a net above 4,096 bytes, the most that a desk takes",
        "the desk was never opened",
        "the stage is locked",
    };
    return refusal < sizeof WORDS / sizeof WORDS[0] ? WORDS[refusal] : "a refusal that this host does not know";
}

static void say(const char *subject, const char *words)
{
    fprintf(stderr, HOST ": %s: %s\n", subject, words);
}

/* Says why nothing was tried. */
static int not_tried(const char *subject, const char *reason)
{
    say(subject, reason);
    return NOT_TRIED;
}

/* The status, or another if not all that was printed could be written. */
static int written(int status)
{
    return fflush(stdout) == 0 && !ferror(stdout) ? status : not_tried("standard output", strerror(errno));
}

/* A version as it is written: 10203 is 1.2.3. */
enum { VERSION_ROOM = 64 };
static const char *version_text(uint64_t version, char text[VERSION_ROOM])
{
    uint64_t major = version / 10000, minor = version / 100 % 100, patch = version % 100;
    snprintf(text, VERSION_ROOM, "%" PRIu64 ".%" PRIu64 ".%" PRIu64, major, minor, patch);
    return text;
}

/* Whether header and library are of one version; it is said if they are not. */
static int is_one_version(void)
{
    char header[VERSION_ROOM], library[VERSION_ROOM];
    if (vorphiel_version() == VORPHIEL_VERSION)
        return 1;
    fprintf(stderr, HOST ": built with vorphiel.h %s and linked with libvorphiel.a %s; take both of one version\n",
            version_text(VORPHIEL_VERSION, header), version_text(vorphiel_version(), library));
    return 0;
}

static int has_argument(int count, char **arguments, const char *wanted)
{
    int i = 1;
    while (i < count && strcmp(arguments[i], wanted) != 0)
        i++;
    return i < count;
}

/* Answers --help and --version, wherever they stand; 0 if neither does. */
static int is_answered(int count, char **arguments, const char *help)
{
    char version[VERSION_ROOM];
    if (has_argument(count, arguments, "--help"))
        fputs(help, stdout);
    else if (has_argument(count, arguments, "--version"))
        printf("vorphiel %s\n", version_text(vorphiel_version(), version));
    else
        return 0;
    return 1;
}

/* Takes an argument that is none of the host's options, as the next of at most `most`. */
static inline int take(const char *argument, int most, struct given *given)
{
    if (argument[0] == '-' && argument[1] != '\0') {
        fprintf(stderr, HOST ": %s: no such option; see " HOST " --help (a file of this name is given as ./%s)\n",
                argument, argument);
        return NOT_TRIED;
    }
    if (given->count == most)
        return not_tried(argument, "one argument too many; see " HOST " --help");
    given->at[given->count++] = argument;
    return 0;
}

static inline int no_file(void)
{
    fputs(HOST ": no file is given; see " HOST " --help\n", stderr);
    return NOT_TRIED;
}

/* Reads a file, or standard input: 0, or the number of the error, as errno has it. */
static int read_bytes(const char *argument, int is_standard, struct input *input)
{
    input->is_standard = is_standard;
    input->argument = argument;
    input->name = is_standard ? "standard input" : argument;
    FILE *file = is_standard ? stdin : fopen(argument, "rb");
    if (file == NULL)
        return errno;
    input->len = fread(input->at, 1, sizeof input->at, file);
    int error = ferror(file) ? errno : 0;
    if (!is_standard)
        fclose(file);
    return error;
}

/* Reads a file, or standard input for -, and says if it cannot. */
static inline int read_input(const char *argument, struct input *input)
{
    int error = read_bytes(argument, strcmp(argument, "-") == 0, input);
    return error == 0 ? 0 : not_tried(input->name, strerror(error));
}

/* Reads a number of 64 bits at the front of a text, digits only, as strtoull alone also takes signs and spaces: the
 * text after it, or NULL if there is none. */
static inline const char *after_number(const char *text, uint64_t *value)
{
    if (text == NULL || *text < '0' || *text > '9')
        return NULL;
    char *rest;
    errno = 0;
    unsigned long long number = strtoull(text, &rest, 10);
    if (errno != 0 || number > UINT64_MAX)
        return NULL;
    *value = number;
    return rest;
}

static inline int is_number(const char *text, uint64_t *value)
{
    const char *rest = after_number(text, value);
    return rest != NULL && *rest == '\0';
}

/* Whether a byte is printable ASCII or white space: a tab, a new line, a new page or their like. */
static int is_of_text(uint8_t byte)
{
    return (byte >= ' ' && byte <= '~') || (byte >= '\t' && byte <= '\r');
}

/* Whether bytes that were refused look like text, which was then perhaps given by mistake. */
static int looks_like_text(const struct input *input)
{
    size_t i = 0;
    while (i < input->len && is_of_text(input->at[i]))
        i++;
    return i > 0 && i == input->len;
}

/* Says the command that makes bytes of a text, and what they are made of. The file it makes has the text's name, with
 * another ending for .hex. */
static void say_command(const char *words, const char *use, const struct input *text, const char *ending)
{
    const char *name = text->argument;
    size_t len = strlen(name);
    int stem = (int)(len >= 4 && strcmp(name + len - 4, ".hex") == 0 ? len - 4 : len);
    if (text->is_standard)
        fprintf(stderr, HOST ": %s: nets/hex.py %s - | " HOST " -\n", words, use);
    else
        fprintf(stderr, HOST ": %s: nets/hex.py %s %s > %.*s.%s\n", words, use, name, stem, name, ending);
}

/* Says what is wrong with a file, and how to see where. */
static void say_fault(const struct input *input, uint8_t refusal)
{
    say(input->name, refusal_words(refusal));
    fprintf(stderr, HOST ": nets/hex.py explain %s says where\n", input->argument);
}

/* Says why bytes are no net, or none for a desk (15), and what to do: perhaps they are text, or a block. */
static inline void say_no_net(const struct input *net, uint8_t refusal)
{
    if (looks_like_text(net)) {
        say(net->name, "looks like text, and a net is bytes");
        say_command("to make them", "bytes", net, "net");
    } else if (net->len > 0 && net->at[0] == BLOCK_TAG) {
        say(net->name, "begins with tag 6, as a block of nets does, and a net with 1 or 7");
        fprintf(stderr, HOST ": report_file %s reports over a block\n", net->argument);
    } else if (refusal <= 6) {
        say_fault(net, refusal);
    } else {
        say(net->name, refusal_words(refusal));
    }
}

#endif
