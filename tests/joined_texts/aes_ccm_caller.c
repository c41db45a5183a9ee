#include "aes_ccm.h"
#include "caller.h"

const char *wrong_with(const struct vector *vector) {
    static uint8_t text[MOST_BYTES];
    const uint8_t *key = vector->parts[0].bytes;
    struct ccm_data data = {vector->parts[2].bytes, vector->parts[2].count};
    struct part plain = vector->parts[3], sealed = vector->parts[4], right = vector->parts[5];
    struct ccm_nonce nonce = {vector->parts[1].bytes, vector->parts[1].count, right.count};
    uint8_t tag[17];
    tag[right.count] = 0xa5;
    taken(text, plain);
    aes_ccm_seal(key, &nonce, data, text, plain.count, tag);
    if (!same(text, sealed) || !same(tag, right) || tag[right.count] != 0xa5)
        return "seal";
    for (uint32_t bit = 0; bit < 8 * right.count; bit += data.count > MOST_BYTES ? 71 : 7) {
        tag[bit / 8] ^= 1 << bit % 8;
        taken(text, sealed);
        if (aes_ccm_open(key, &nonce, data, text, plain.count, tag) || !all_zero(text, plain.count))
            return "another_tag";
        tag[bit / 8] ^= 1 << bit % 8;
    }
    taken(text, sealed);
    if (plain.count > 0) {
        text[plain.count - 1] ^= 0x80;
        if (aes_ccm_open(key, &nonce, data, text, plain.count, tag))
            return "another_text";
    }
    if (data.count > 0) {
        taken(text, sealed);
        data.count--;
        if (aes_ccm_open(key, &nonce, data, text, plain.count, tag))
            return "other_data";
        data.count++;
    }
    taken(text, sealed);
    return aes_ccm_open(key, &nonce, data, text, plain.count, tag) && same(text, plain) ? 0 : "open";
}
