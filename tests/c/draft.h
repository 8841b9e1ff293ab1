/* A table written field by field, for tests. */
#include <stddef.h>
#include <stdint.h>
#include <string.h>

static uint8_t draft[4096];
static size_t draft_bits;

static void draft_begin(void) {
    memset(draft, 0, sizeof draft);
    draft_bits = 0;
}

static void put(unsigned width, uint32_t number) {
    while (width-- > 0) {
        draft[draft_bits / 8] |= (uint8_t)((number >> width & 1) << (7 - draft_bits % 8));
        draft_bits++;
    }
}

static size_t draft_bytes(void) { return (draft_bits + 7) / 8; }
