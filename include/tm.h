/* The macros of STAMP's tm.h over the C interface of a memory (vacation_tm.h): code that is written
 * with these macros runs on any object that has the interface. The words that it shares are those of
 * the array that `tm_open` got; TM_STARTUP makes it. A file that uses them defines `tm_words`:
 *
 *     uint64_t *tm_words;
 *     void *tm_shared;
 */
#ifndef VACATION_STAMP_TM_H
#define VACATION_STAMP_TM_H

#include "vacation_tm.h"

extern uint64_t *tm_words;
extern void *tm_shared;

/* What a thread has: its client of the memory, and where its transaction begins. */
struct tm_thread {
    void *client;
    sigjmp_buf begin;
};

#define TM_ARGDECL_ALONE struct tm_thread *tm_thread
#define TM_ARGDECL struct tm_thread *tm_thread,
#define TM_ARG_ALONE tm_thread
#define TM_ARG tm_thread,

#define TM_STARTUP(words, count) (tm_words = (words), tm_shared = tm_open((words), (count)))
#define TM_SHUTDOWN() tm_close(tm_shared)
#define TM_THREAD_ENTER(number)                                                                     \
    struct tm_thread tm_own_thread, *tm_thread = &tm_own_thread;                                    \
    tm_thread->client = tm_client(tm_shared, (number))
#define TM_THREAD_EXIT() ((void)tm_thread)

#define TM_BEGIN()                                                                                  \
    do {                                                                                            \
        (void)sigsetjmp(tm_thread->begin, 0);                                                       \
        tm_begin(tm_thread->client, &tm_thread->begin)
#define TM_END()                                                                                    \
        if (tm_commit(tm_thread->client) != 0)                                                      \
            TM_RESTART();                                                                           \
    } while (0)
#define TM_RESTART() siglongjmp(tm_thread->begin, 1)

/* The value of a word, which is a `uint64_t` of the array. */
static inline uint64_t tm_shared_read(struct tm_thread *tm_thread, const uint64_t *word)
{
    uint64_t value;
    if (tm_read(tm_thread->client, (uint32_t)(word - tm_words), &value) != 0)
        TM_RESTART();
    return value;
}

static inline void tm_shared_write(struct tm_thread *tm_thread, uint64_t *word, uint64_t value)
{
    if (tm_write(tm_thread->client, (uint32_t)(word - tm_words), value) != 0)
        TM_RESTART();
}

#define TM_SHARED_READ(word) tm_shared_read(tm_thread, &(word))
#define TM_SHARED_READ_P(word) ((void *)(uintptr_t)tm_shared_read(tm_thread, &(word)))
#define TM_SHARED_WRITE(word, value) tm_shared_write(tm_thread, &(word), (uint64_t)(value))
#define TM_SHARED_WRITE_P(word, value) tm_shared_write(tm_thread, &(word), (uint64_t)(uintptr_t)(value))
#define TM_LOCAL_WRITE(local, value) ((local) = (value))
#define TM_LOCAL_WRITE_P(local, value) ((local) = (value))

#endif
