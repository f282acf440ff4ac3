/* The lent buffers: memory between canary bytes, or before an inaccessible page. */
#define _DEFAULT_SOURCE 1

#include "lent.h"

#include <stdio.h>
#include <stdlib.h>
#include <string.h>
#include <sys/mman.h>
#include <unistd.h>

static void stop(const char *why)
{
    fprintf(stderr, "drive: %s\n", why);
    exit(2);
}

/* Memory with space for canary bytes at both ends; lent_make lays those before. */
uint8_t *plain_end(size_t room)
{
    uint8_t *memory = malloc(CANARY_BYTES + room + CANARY_BYTES);
    if (memory == NULL)
        stop("no memory");
    memset(memory, 0, CANARY_BYTES + room);
    memset(memory + CANARY_BYTES + room, CANARY, CANARY_BYTES);
    return memory + CANARY_BYTES + room;
}

/* Memory of whole pages with an inaccessible page at both ends. */
static uint8_t *guarded_end(size_t room)
{
    size_t page = (size_t)sysconf(_SC_PAGESIZE);
    size_t open = (CANARY_BYTES + room + page - 1) / page * page;
    void *memory = mmap(NULL, page + open + page, PROT_NONE, MAP_PRIVATE | MAP_ANONYMOUS, -1, 0);
    if (memory == MAP_FAILED || mprotect((uint8_t *)memory + page, open, PROT_READ | PROT_WRITE) != 0)
        stop("no guarded memory");
    return (uint8_t *)memory + page + open;
}

static struct lent lent_make(size_t room, bool guarded)
{
    struct lent l = { guarded ? guarded_end(room) : plain_end(room), room, guarded };
    memset(l.end - room - CANARY_BYTES, CANARY, CANARY_BYTES);
    return l;
}

struct set set_make(bool guarded)
{
    const size_t room[PARTS] = { store_size[STATE], store_size[PAGE], store_size[LEGENDS], store_size[TABLES], RECORD_ROOM, REPLY_ROOM, OUT_ROOM,
        FEET_BYTES };
    struct set s;
    for (unsigned i = 0; i < PARTS; i++)
        s.part[i] = lent_make(room[i], guarded);
    return s;
}

/* The last bytes of a buffer, so that any length ends where the buffer ends. */
uint8_t *last_bytes(const struct set *s, unsigned part, size_t length)
{
    return s->part[part].end - length;
}

uint8_t *store(const struct set *s, enum store which)
{
    return last_bytes(s, which, store_size[which]);
}
