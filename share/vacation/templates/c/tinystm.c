/* TinySTM (1.0.5) behind the C interface, where its header and library are installed:
 *
 *     cc -O2 -fPIC -shared -I include -I $TINYSTM/include share/vacation/templates/c/tinystm.c \
 *         -L $TINYSTM/lib -lstm -o tinystm.so
 *     ./vacation tasks --tasks 1000 --items 8 > work
 *     built/peer ./tinystm.so --history --jitter 1 < work > log &&
 *         ./judge history --tasks work < log
 *
 * (`benchmark/build built --interface` builds `peer`; `&&`, because a run that hung or crashed can end
 * as `legal`: vacation_tm.h.) The library must be built as position-independent code (-fPIC). It jumps out of an attempt by a
 * buffer of its own, into which the driver's is copied, and begins the next attempt itself. It shows
 * no version, so the order of the calls is looked for. The mistake of -DMISTAKE=1: words of odd
 * addresses are read behind the library's back.
 */
#include "vacation_tm.h"

#include <stm.h>
#include <string.h>

#ifndef MISTAKE
#define MISTAKE 0
#endif

static uint64_t *words;

void *tm_open(uint64_t *first, size_t count)
{
    (void)count;
    words = first;
    stm_init();
    return first;
}

void *tm_client(void *shared, unsigned number)
{
    (void)number;
    stm_init_thread();
    return shared;
}

void tm_begin(void *client, sigjmp_buf *way_out)
{
    (void)client;
    if (!stm_active())
        stm_start((stm_tx_attr_t){0});
    memcpy(stm_get_env(), way_out, sizeof *way_out);
}

int tm_read(void *client, uint32_t addr, uint64_t *value)
{
    (void)client;
    *value = MISTAKE && addr % 2 == 1 ? words[addr] : stm_load((stm_word_t *)&words[addr]);
    return 0;
}

int tm_write(void *client, uint32_t addr, uint64_t value)
{
    (void)client;
    stm_store((stm_word_t *)&words[addr], value);
    return 0;
}

int tm_commit(void *client)
{
    (void)client;
    return !stm_commit();
}

uint64_t tm_place(void *client)
{
    (void)client;
    return 0;
}

/* Rolls back by the library's own jump, which ends here. */
void tm_abandon(void *client)
{
    (void)client;
    if (sigsetjmp(*stm_get_env(), 0) == 0)
        stm_abort(0);
}
