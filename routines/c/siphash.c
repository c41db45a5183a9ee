/* What siphash.h says, around siphash24_blocks, which takes eight blocks of 8 bytes at once. */
#include "siphash.h"

#include "message.h"
#include "siphash24_blocks.h"
#include "siphash24_finish.h"

/* "somepseudorandomlygeneratedbytes": four numbers of 64 bits, of each the lower word first. */
static const uint32_t first_state[8] = {0x70736575, 0x736f6d65, 0x6e646f6d, 0x646f7261, 0x6e657261, 0x6c796765, 0x79746573, 0x74656462};

void siphash_init(struct siphash *hash, const uint8_t key[16]) {
    for (uint32_t at = 0; at < 8; at++)
        hash->state[at] = first_state[at] ^ lowest_first_word(key + 4 * (at % 4));
    hash->count = 0;
}

void siphash_update(struct siphash *hash, const uint8_t *bytes, uint32_t count) {
    uint32_t used = hash->count % 64, room = 64 - used;
    hash->count += count;
    if (used > 0 && count >= room) {
        copied(hash->blocks + used, bytes, room);
        siphash24_blocks(hash->state, hash->blocks, 8);
        bytes += room;
        count -= room;
        used = 0;
    }
    for (; count >= 64; count -= 64, bytes += 64)
        siphash24_blocks(hash->state, bytes, 8);
    copied(hash->blocks + used, bytes, count);
}

void siphash_finish(struct siphash *hash, uint8_t tag[8]) {
    uint32_t used = hash->count % 64, whole = used / 8;
    uint8_t last[8];
    siphash24_blocks(hash->state, hash->blocks, whole);
    filled(last, 0, 8);
    copied(last, hash->blocks + 8 * whole, used % 8);
    last[7] = (uint8_t)hash->count;
    siphash24_finish(hash->state, last, tag);
    wiped(last, sizeof last);
    wiped(hash, sizeof *hash);
}
