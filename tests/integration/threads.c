/* All calls in several threads at once.
 *
 *     threads TURNS FILE...
 *
 * First every call is made on the bytes of every file in turn. Then THREADS threads make all these calls at once, so
 * many times; each begins with another file, so that at any time different inputs are worked on, and the same ones too.
 * The threads have a stack of 256 kB each, and share nothing but the inputs, which are only read: bytes and desks. The
 * desks that they change are their own. Status 0: every answer is that which the call gave alone. The others are
 * printed. */
#define _DEFAULT_SOURCE
#include "calls.h"

#include <pthread.h>

enum { THREADS = 8, STACK = 256000, MOST_FILES = 64 };

static struct input *inputs[MOST_FILES];
static struct answer wanted[MOST_FILES][CALLS];
static int files, turns;
static pthread_barrier_t start;

/* All calls on one input; the number of answers that are not those wanted. */
static size_t others(int file, struct room *room, struct answer *answer)
{
    size_t other = 0;
    for (int call = 0; call < CALLS; call++) {
        make_call((enum call)call, inputs[file], room, answer);
        if (!same_answer(answer, &wanted[file][call])) {
            printf("another answer: vorphiel_%s, %s\n", call_names[call], inputs[file]->name);
            other++;
        }
    }
    return other;
}

/* One thread; its number says with which file it begins. Gives the number of wrong answers. */
static void *run(void *given)
{
    int number = *(const int *)given;
    struct room *room = malloc(sizeof *room);
    struct answer *answer = malloc(sizeof *answer);
    size_t other = 0;
    if (room == NULL || answer == NULL)
        give_up("threads: memory");
    pthread_barrier_wait(&start);
    for (int turn = 0; turn < turns * files; turn++)
        other += others((number / 2 + turn) % files, room, answer);
    free(room);
    free(answer);
    return (void *)other;
}

/* Runs all threads; gives the number of wrong answers. */
static size_t run_all(void)
{
    pthread_attr_t attributes;
    pthread_t threads[THREADS];
    int numbers[THREADS];
    size_t other = 0;
    if (pthread_attr_init(&attributes) != 0 || pthread_attr_setstacksize(&attributes, STACK) != 0
        || pthread_barrier_init(&start, NULL, THREADS) != 0)
        give_up("threads: attributes");
    for (int i = 0; i < THREADS; i++) {
        numbers[i] = i;
        if (pthread_create(&threads[i], &attributes, run, &numbers[i]) != 0)
            give_up("threads: a thread");
    }
    for (int i = 0; i < THREADS; i++) {
        void *found;
        pthread_join(threads[i], &found);
        other += (size_t)found;
    }
    pthread_attr_destroy(&attributes);
    pthread_barrier_destroy(&start);
    return other;
}

int main(int count, char **arguments)
{
    static struct room room;
    files = count - 2;
    if (files < 1 || files > MOST_FILES)
        return 2;
    turns = atoi(arguments[1]);
    for (int i = 0; i < files; i++) {
        inputs[i] = read_input(arguments[i + 2]);
        for (int call = 0; call < CALLS; call++)
            make_call((enum call)call, inputs[i], &room, &wanted[i][call]);
    }
    size_t other = run_all();
    for (int i = 0; i < files; i++)
        free(inputs[i]);
    printf("%d threads, %d answers each, %zu of them not as alone\n", THREADS, turns * files * CALLS, other);
    return other == 0 ? 0 : 1;
}
