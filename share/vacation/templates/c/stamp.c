/* A memory with STAMP's macros under the tasks of the reservation system. By default the macros are
 * those of include/tm.h, which stand over the C interface, here over the example tl2.c:
 *
 *     benchmark/build built --interface
 *     cc -O2 -pthread -I include share/vacation/templates/c/stamp.c share/vacation/templates/c/tl2.c \
 *         -L built -lvacation_body -Wl,-rpath,$PWD/built -o stamp
 *     ./vacation tasks --tasks 1000 --items 8 > work
 *     ./stamp < work > log && ./judge history --tasks work < log
 *
 * (`&&`, because a run that hung or crashed can end as `legal`: vacation_tm.h.) A memory of your own
 * that comes with a tm.h: put its folder before `include`, and the calls that start it into `main`.
 * Each line of the log is written as its call ends; a process in which no call ends for 60 seconds is
 * ended.
 */
#include "tm.h"
#include "vacation_body.h"

#include <pthread.h>
#include <sched.h>
#include <stdatomic.h>
#include <stdio.h>
#include <stdlib.h>
#include <string.h>
#include <time.h>
#include <unistd.h>

enum { BLOCKS = 1024, MOST_CLIENTS = 65, MOST_LINE = 1 << 12, PATIENCE = 60 };

uint64_t *tm_words;
void *tm_shared;

struct work {
    unsigned client;
    char **lines;
    size_t count, room;
};

static struct work work[MOST_CLIENTS];
static _Atomic long ended;

static unsigned long long nanoseconds(void)
{
    struct timespec now;
    clock_gettime(CLOCK_MONOTONIC, &now);
    return now.tv_sec * 1000000000ull + now.tv_nsec;
}

/* (tl2.c calls it between its steps; now and then another thread goes on) */
void vacation_step(void)
{
    static _Thread_local unsigned draws = 1;
    draws = draws * 1103515245 + 12345;
    if (draws >> 25 == 0)
        sched_yield();
}

static void read_work(void)
{
    char line[MOST_LINE];
    while (fgets(line, sizeof line, stdin) != NULL) {
        char *task;
        struct work *own = &work[strtoul(line, &task, 10) % MOST_CLIENTS];
        task[strcspn(task, "\n")] = 0;
        if (own->count == own->room)
            own->lines = realloc(own->lines, (own->room = 2 * own->room + 64) * sizeof *own->lines);
        own->lines[own->count++] = strdup(task + 1);
    }
}

/* The accesses of an attempt, each by its macro. */
static void run_body(TM_ARGDECL struct vacation_body *body)
{
    uint64_t answer = 0;
    for (int what; (what = vacation_next(body, answer)) != VACATION_DONE;) {
        if (what == VACATION_LOST)
            TM_RESTART();
        uint64_t *word = &tm_words[vacation_addr(body)];
        if (what == VACATION_READ)
            answer = TM_SHARED_READ(*word);
        else
            TM_SHARED_WRITE(*word, vacation_value(body));
    }
}

static void run_task(TM_ARGDECL struct vacation_body *body, const char *line)
{
    TM_BEGIN();
    if (vacation_start(body, line) != 0)
        abort();
    run_body(TM_ARG body);
    TM_END();
}

static void *run_client(void *own)
{
    const struct work *todo = own;
    struct vacation_body *body = vacation_body_new(todo->client);
    TM_THREAD_ENTER(todo->client);
    for (size_t i = 0; i < todo->count; ++i) {
        char line[2 * MOST_LINE];
        const unsigned long long begin = nanoseconds();
        run_task(TM_ARG body, todo->lines[i]);
        const int length = snprintf(line, sizeof line, "%u %llu %llu %s -> %s\n", todo->client, begin,
                                    nanoseconds(), todo->lines[i], vacation_reply(body));
        if (write(STDOUT_FILENO, line, length) != length)
            abort();
        atomic_store(&ended, time(NULL));
    }
    TM_THREAD_EXIT();
    vacation_body_free(body);
    return NULL;
}

static void *watch(void *none)
{
    for (;; sleep(1))
        if (time(NULL) - atomic_load(&ended) > PATIENCE) {
            fprintf(stderr, "stamp: no call has ended for %d seconds\n", PATIENCE);
            _exit(3);
        }
    return none;
}

int main(void)
{
    pthread_t threads[MOST_CLIENTS], watcher;
    const size_t count = vacation_words(BLOCKS, NULL);
    uint64_t *words = aligned_alloc(128, (count * sizeof *words + 127) / 128 * 128);
    vacation_words(BLOCKS, words);
    TM_STARTUP(words, count);
    read_work();
    ended = time(NULL);
    pthread_create(&watcher, NULL, watch, NULL);
    run_client(&work[0]);
    for (unsigned i = 1; i < MOST_CLIENTS; ++i) {
        work[i].client = i;
        if (work[i].count != 0)
            pthread_create(&threads[i], NULL, run_client, &work[i]);
    }
    for (unsigned i = 1; i < MOST_CLIENTS; ++i)
        if (work[i].count != 0)
            pthread_join(threads[i], NULL);
    return 0;
}
