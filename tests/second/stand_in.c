/* The library's calls, answered by the second program: for runs of the driver under tools that cannot run the library. */
#include "../../include/trestlepip.h"
#include "second.h"

uint64_t trestlepip_start(uint32_t form,
        uint32_t pitch0, uint32_t pitch1, uint32_t pitch2, uint32_t pitch3, uint32_t skip,
        uint8_t *state, size_t state_len, uint8_t *page, size_t page_len,
        uint8_t *legends, size_t legends_len, uint8_t *tables, size_t tables_len)
{
    return second_start(form, pitch0, pitch1, pitch2, pitch3, skip,
            state, state_len, page, page_len, legends, legends_len, tables, tables_len);
}

uint64_t trestlepip_command(uint8_t command,
        const uint8_t *record, size_t record_len, uint8_t *reply, size_t reply_len,
        uint8_t *state, size_t state_len, uint8_t *page, size_t page_len,
        uint8_t *legends, size_t legends_len, uint8_t *tables, size_t tables_len)
{
    return second_command(command, record, record_len, reply, reply_len,
            state, state_len, page, page_len, legends, legends_len, tables, tables_len);
}

uint64_t trestlepip_compose(uint32_t copy,
        uint8_t *out, size_t out_len,
        const uint8_t *state, size_t state_len, const uint8_t *page, size_t page_len,
        const uint8_t *legends, size_t legends_len, const uint8_t *tables, size_t tables_len)
{
    return second_compose(copy, out, out_len, state, state_len, page, page_len, legends, legends_len, tables, tables_len);
}

uint64_t trestlepip_release(
        uint8_t *state, size_t state_len, uint8_t *page, size_t page_len,
        uint8_t *legends, size_t legends_len, uint8_t *tables, size_t tables_len)
{
    return second_release(state, state_len, page, page_len, legends, legends_len, tables, tables_len);
}

/* The five calls that change the page counters have one signature. */
#define TALLY_CALL(name) \
    uint64_t trestlepip_##name( \
            uint8_t *state, size_t state_len, const uint8_t *page, size_t page_len, \
            const uint8_t *legends, size_t legends_len, const uint8_t *tables, size_t tables_len) \
    { \
        return second_##name(state, state_len, page, page_len, legends, legends_len, tables, tables_len); \
    }

TALLY_CALL(transferred)
TALLY_CALL(fused)
TALLY_CALL(stacked)
TALLY_CALL(cancel)
TALLY_CALL(restart)

uint64_t trestlepip_feet(uint16_t initial, uint16_t final, uint32_t copies, uint32_t form, double *feet)
{
    return second_feet(initial, final, copies, form, feet);
}
