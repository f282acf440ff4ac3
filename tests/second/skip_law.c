/* T-05, checked without the second program: which skips stand, and that those change nothing. */
#include "skip_law.h"

#include <string.h>

/* Whether a skip that stood left the state as it was, except its sense, which it sets anew to 00. */
static bool state_stood(const uint8_t *before, const uint8_t *after)
{
    static const uint8_t no_sense[TRESTLEPIP_SENSE_KEPT];
    const size_t from = TRESTLEPIP_AT_SEQUENCE, rest = TRESTLEPIP_STATE_BYTES - from;
    return memcmp(before, after, TRESTLEPIP_AT_SENSE_0) == 0 && memcmp(after + TRESTLEPIP_AT_SENSE_0, no_sense, sizeof no_sense) == 0
        && memcmp(before + from, after + from, rest) == 0;
}

/* A skip that stood tells status 0C and nothing else. */
static const char *standing_fault(const struct run *r)
{
    if (r->library_answer != (uint64_t)TRESTLEPIP_STATUS_ENDED << 8)
        return "it stood, and its answer is not status 0C alone";
    if (!state_stood(r->before[STATE], store(r->library, STATE)))
        return "it stood, and the state is not as before with the sense 00";
    for (enum store i = PAGE; i <= TABLES; i++)
        if (memcmp(store(r->library, i), r->before[i], store_size[i]) != 0)
            return "it stood, and another store than the state changed";
    return NULL;
}

const char *skip_fault(const struct run *r)
{
    const struct call *c = &r->call;
    bool is_skip = immediate_channel(c) != 0 || write_channel(c) != 0;
    if (!is_skip || trestlepip_number(r->library_answer) != TRESTLEPIP_ACCEPTED)
        return NULL;
    bool stood = trestlepip_lines(r->library_answer) == 0, new_way = r->before[STATE][TRESTLEPIP_AT_SKIP] == TRESTLEPIP_NEW_WAY;
    if (stood != (new_way && skips_where_it_stands(c, r->before[STATE])))
        return stood ? "0 lines moved, and it had to move" : "lines moved, and it had to stand";
    return stood ? standing_fault(r) : NULL;
}
