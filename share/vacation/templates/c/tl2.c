/* A small TL2 over the C interface, as an example and as a beginning of your own:
 *
 *     benchmark/build built --interface
 *     cc -O2 -fPIC -shared -I include share/vacation/templates/c/tl2.c -o tl2.so
 *     ./vacation tasks --tasks 1000 --items 8 > work
 *     built/peer ./tl2.so --attempts --jitter 1 < work > attempts && ./judge attempts < attempts
 *     built/peer ./tl2.so --history --jitter 1 < work > log && ./judge history --given-order --tasks work < log
 *
 * (`&&`, because a run that hung or crashed can end as `legal`: vacation_tm.h.) A conflict jumps out of
 * the attempt, as TinySTM does; returning 1 from tm_read, tm_write or tm_commit would do, too. With
 * -DMISTAKE=1 a commit does not validate what was read: the judge shall find that.
 */
#include "vacation_tm.h"

#include <stdatomic.h>
#include <stdlib.h>

#ifndef MISTAKE
#define MISTAKE 0
#endif

enum { STRIPES = 1 << 16 };

/* A lock word is twice the version of its stripe's words, and 1 more while a writer holds it. */
static _Atomic uint64_t *words;
static _Atomic uint64_t locks[STRIPES];
static _Alignas(128) _Atomic uint64_t version_clock;

struct written {
    uint32_t addr;
    uint64_t value;
};

struct held {
    uint32_t stripe;
    uint64_t before;
};

struct client {
    sigjmp_buf *way_out;
    uint64_t read_version, place;
    uint32_t *reads;
    size_t read_count, read_room;
    struct written *writes;
    struct held *held;
    size_t write_count, held_count, write_room;
};

static uint32_t stripe_of(uint32_t addr) { return addr % STRIPES; }

/* Makes room for one more element. */
static void *grown(void *elements, size_t count, size_t *room, size_t size)
{
    if (count < *room)
        return elements;
    *room = *room == 0 ? 256 : 2 * *room;
    elements = realloc(elements, *room * size);
    if (elements == NULL)
        abort();
    return elements;
}

void *tm_open(uint64_t *first, size_t count)
{
    (void)count;
    words = (_Atomic uint64_t *)first;
    return &version_clock;
}

void *tm_client(void *shared, unsigned number)
{
    (void)shared, (void)number;
    return calloc(1, sizeof(struct client));
}

void tm_begin(void *own, sigjmp_buf *way_out)
{
    struct client *client = own;
    client->way_out = way_out;
    client->read_count = client->write_count = client->held_count = 0;
    client->read_version = atomic_load(&version_clock);
    client->place = 2 * client->read_version + 1;
}

/* Ends the attempt after a conflict: the locks get their old versions back. */
static _Noreturn void leave(struct client *client)
{
    for (size_t i = 0; i < client->held_count; ++i)
        atomic_store(&locks[client->held[i].stripe], client->held[i].before);
    client->held_count = 0;
    siglongjmp(*client->way_out, 1);
}

static int is_newer_or_held(const struct client *client, uint64_t lock)
{
    return lock % 2 == 1 || lock / 2 > client->read_version;
}

int tm_read(void *own, uint32_t addr, uint64_t *value)
{
    struct client *client = own;
    for (size_t i = client->write_count; i-- > 0;)
        if (client->writes[i].addr == addr) {
            *value = client->writes[i].value;
            return 0;
        }
    const uint64_t before = atomic_load(&locks[stripe_of(addr)]);
    vacation_step();
    *value = atomic_load(&words[addr]);
    vacation_step();
    if (is_newer_or_held(client, before) || atomic_load(&locks[stripe_of(addr)]) != before)
        leave(client);
    client->reads = grown(client->reads, client->read_count, &client->read_room, sizeof *client->reads);
    client->reads[client->read_count++] = stripe_of(addr);
    return 0;
}

int tm_write(void *own, uint32_t addr, uint64_t value)
{
    struct client *client = own;
    for (size_t i = 0; i < client->write_count; ++i)
        if (client->writes[i].addr == addr) {
            client->writes[i].value = value;
            return 0;
        }
    size_t room = client->write_room;
    client->held = grown(client->held, client->write_count, &room, sizeof *client->held);
    client->writes =
        grown(client->writes, client->write_count, &client->write_room, sizeof *client->writes);
    client->writes[client->write_count++] = (struct written){addr, value};
    return 0;
}

static const struct held *held_stripe(const struct client *client, uint32_t stripe)
{
    for (size_t i = 0; i < client->held_count; ++i)
        if (client->held[i].stripe == stripe)
            return &client->held[i];
    return NULL;
}

static void take_locks(struct client *client)
{
    for (size_t i = 0; i < client->write_count; ++i) {
        const uint32_t stripe = stripe_of(client->writes[i].addr);
        if (held_stripe(client, stripe) != NULL)
            continue;
        uint64_t before = atomic_load(&locks[stripe]);
        vacation_step();
        if (before % 2 == 1 || !atomic_compare_exchange_strong(&locks[stripe], &before, before + 1))
            leave(client);
        client->held[client->held_count++] = (struct held){stripe, before};
    }
}

static void validate(struct client *client)
{
    for (size_t i = 0; i < client->read_count; ++i) {
        const struct held *own = held_stripe(client, client->reads[i]);
        const uint64_t lock = own != NULL ? own->before : atomic_load(&locks[client->reads[i]]);
        vacation_step();
        if (is_newer_or_held(client, lock))
            leave(client);
    }
}

int tm_commit(void *own)
{
    struct client *client = own;
    if (client->write_count == 0)
        return 0;
    take_locks(client);
    const uint64_t version = atomic_fetch_add(&version_clock, 1) + 1;
    if (!MISTAKE && version != client->read_version + 1)
        validate(client);
    for (size_t i = 0; i < client->write_count; ++i) {
        atomic_store(&words[client->writes[i].addr], client->writes[i].value);
        vacation_step();
    }
    for (size_t i = 0; i < client->held_count; ++i)
        atomic_store(&locks[client->held[i].stripe], 2 * version);
    client->held_count = 0;
    client->place = 2 * version;
    return 0;
}

uint64_t tm_place(void *own) { return ((struct client *)own)->place; }
