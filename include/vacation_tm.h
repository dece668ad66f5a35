/* The C interface of a transactional memory of words. A shared object with these functions is run by
 * the program `peer`, in which a number of clients do the tasks of the reservation system on it. In
 * the unpacked tarball or in a clone:
 *
 *     benchmark/build built --interface
 *     cc -O2 -fPIC -shared -I include mine.c -o mine.so
 *     ./vacation tasks --tasks 1000 --items 8 > work
 *     built/peer ./mine.so --attempts --jitter 1 < work > attempts && ./judge attempts < attempts
 *     built/peer ./mine.so --history --jitter 1 < work > log && ./judge history --given-order --tasks work < log
 *
 * `&&` is needed: a run that hung or crashed can end as `legal`, since tasks behind a client's pending
 * call do not count as missing. What to do if a verdict is not `legal` or `opaque`: docs/CHECK-STM.md, "If a
 * verdict is not `opaque` or `legal`".
 *
 * Each client is a thread of its own and calls with its own value of `tm_client`. The functions are
 * written in any language that makes C symbols. Examples: share/vacation/templates.
 */
#ifndef VACATION_TM_H
#define VACATION_TM_H

#include <setjmp.h>
#include <stddef.h>
#include <stdint.h>

#ifdef __cplusplus
extern "C" {
#endif

/* Called once, before any client: the memory begins with these words, whose addresses are 0 to
 * count - 1. The array stays where it is, on a cache line, and may be used in place: at the end the
 * words of the memory are read from it. Returns what `tm_client` gets. */
void *tm_open(uint64_t *words, size_t count);

/* Called once for each client, in its thread. Client 0 opens the system alone, before the others begin.
 * The others are numbered from 1 as their threads arrive, so the number is not CLIENT of the log.
 * `vacation tasks` draws work for at most 64 clients besides client 0, so the numbers are 0 to 64;
 * other work may have more clients. Returns what the calls below get. */
void *tm_client(void *shared, unsigned number);

/* Begins an attempt. It ends by `tm_commit`, or by a conflict: `tm_read`, `tm_write` or `tm_commit`
 * returns a number that is not 0, or any function from `tm_begin` on jumps by
 * `siglongjmp(*way_out, 1)`. A library that jumps by a buffer of its own may copy this buffer over its
 * own. After a conflict the client holds no lock, and the task is tried again. */
void tm_begin(void *client, sigjmp_buf *way_out);
int tm_read(void *client, uint32_t addr, uint64_t *value);
int tm_write(void *client, uint32_t addr, uint64_t value);
int tm_commit(void *client);

/* Returns the place of the attempt that has ended, in the order in which the attempts took effect.
 * Called after attempts that met a conflict, too.
 *
 * - An attempt that committed and wrote version v: 2 * v. A writer gets v while it holds the locks of
 *   all words that it writes.
 * - Any other attempt: 2 * v + 1, if version v has all that it read. After an extension v is the
 *   version to which it extended. If it read nothing, v is the version at its begin.
 * - A memory without versions returns 0. Its calls then stand by their begin: judge its histories by
 *   `judge history`, and no attempts.
 * - A memory that numbers its writers alone returns 2 * v for them, and 0 for other attempts. Judge
 *   its attempts by `judge attempts --place`, and its histories by `judge history` behind
 *   `sort -n -k 2,2`, which puts the lines of each client into its order. */
uint64_t tm_place(void *client);

/* Optional. Ends an attempt that the driver abandons, because what it has read leads its task to
 * where no state leads: gives back its locks and its writes. A memory that takes no lock and writes
 * no word before `tm_commit` needs none. */
void tm_abandon(void *client);

/* Optional. Called once, after all clients: a memory that keeps its words elsewhere writes them back
 * to the array of `tm_open`. */
void tm_close(void *shared);

/* A function of the program, not of the object. The object may call it between its steps, which
 * `--jitter` then draws apart. */
void vacation_step(void);

#ifdef __cplusplus
}
#endif
#endif
