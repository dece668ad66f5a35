/* The tasks of the reservation system in pull form, for memories that run a block of code as a
 * transaction (GHC's STM, a language's `atomic`, STAMP's macros) and for languages in which a call
 * from C is dear. The program is the user's. For each attempt it asks for one access after the other,
 * and does it on its memory:
 *
 *     struct vacation_body *body = vacation_body_new(CLIENT);
 *     vacation_start(body, "trip 3 car 1 car 2");
 *     for (answer = 0; (what = vacation_next(body, answer)) != VACATION_DONE;)
 *         if (what == VACATION_READ) answer = .. the word at vacation_addr(body) ..
 *         else if (what == VACATION_WRITE) .. vacation_value(body) to vacation_addr(body) ..
 *         else .. VACATION_LOST: the attempt is given up ..
 *     puts(vacation_reply(body));
 *
 * An attempt that met a conflict is given up without a word: `vacation_start` begins the next one.
 * The library is built/libvacation_body.so after `benchmark/build built --interface`. Only one thread
 * at a time may use a body; from one attempt to the next the thread may change.
 *
 * What the program must do besides (share/vacation/templates/python/tl2.py does all of it):
 *
 * - Client 0 does its tasks alone, then all other clients do theirs side by side.
 * - A line of a history is written as its call ends. A watchdog ends a run in which no call ends for a
 *   minute, with a status that is not 0. Then come lines `CLIENT BEGIN - LINE -> ?`, one for each call
 *   that was running: another client may have seen its effect.
 * - A text of attempts begins with the first words: one line `0 0 0 commit w A V w A V ..`, with
 *   each word of `vacation_words` that is not 0. Without this line the first read of such a word is
 *   an `illegal read`.
 * - A memory that is wrong can leave words that make each later attempt VACATION_LOST. So a client
 *   ends after three lost attempts in turn, as in `peer`, or the watchdog ends the run.
 */
#ifndef VACATION_BODY_H
#define VACATION_BODY_H

#include <stdint.h>

#ifdef __cplusplus
extern "C" {
#endif

enum { VACATION_DONE, VACATION_READ, VACATION_WRITE, VACATION_LOST };

struct vacation_body;

/* Makes the body of a client. `client` is its number in the tasks, from which follows the free list
 * that gives blocks to its new entries. Returns NULL if there is no memory. */
struct vacation_body *vacation_body_new(unsigned client);
void vacation_body_free(struct vacation_body *);

/* Begins an attempt at the task of this line, as `vacation tasks` writes it behind the client's
 * number. If the line is NULL, the task is that of the call of `vacation_start` before. Returns 0, or 1
 * if the line is no task. */
int vacation_start(struct vacation_body *, const char *line);

/* Goes on with the attempt, to its next access or its end. `answer` is the word that the read before
 * asked for, and counts for nothing else. VACATION_LOST says that the words read belong to no state:
 * the next access would be outside the memory, or there are more than any task has. */
int vacation_next(struct vacation_body *, uint64_t answer);

/* The address of the access, and the value that is to be written. */
uint32_t vacation_addr(const struct vacation_body *);
uint64_t vacation_value(const struct vacation_body *);

/* The reply to the task of an attempt that is done. The text stands until the next call. */
const char *vacation_reply(struct vacation_body *);

/* Writes the words of an empty system of so many blocks, and returns how many there are. With NULL it
 * writes none. The bodies of all clients are over a memory of so many words: call it first. */
uint64_t vacation_words(uint64_t blocks, uint64_t *words);

#ifdef __cplusplus
}
#endif
#endif
