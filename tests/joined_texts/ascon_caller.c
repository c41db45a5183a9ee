#include "ascon.h"
#include "caller.h"

/* A message of a hash or of the XOF, whose labels begin so: at once, and in parts. */
static const char *wrong_hash(const struct vector *vector) {
    struct part message = vector->parts[0], wanted = vector->parts[1];
    for (uint32_t part = 1; part < 40; part += 6) {
        struct ascon_hash hash;
        uint8_t digest[MOST_BYTES];
        if (vector->label[0] == 'h')
            ascon_hash256_init(&hash);
        else
            ascon_xof128_init(&hash);
        for (uint32_t at = 0; at < message.count; at += part)
            ascon_update(&hash, message.bytes + at, message.count - at < part ? message.count - at : part);
        ascon_finish(&hash, digest, wanted.count);
        if (!same(digest, wanted) || !all_zero((const uint8_t *)&hash, sizeof hash))
            return "digest";
    }
    return 0;
}

const char *wrong_with(const struct vector *vector) {
    static uint8_t text[MOST_BYTES];
    const uint8_t *key = vector->parts[0].bytes, *nonce = vector->parts[1].bytes;
    struct ascon_data data = {vector->parts[2].bytes, vector->parts[2].count};
    struct part plain = vector->parts[3], sealed = vector->parts[4], right = vector->parts[5];
    uint8_t tag[16];
    if (right.count == 0)
        return wrong_hash(vector);
    taken(text, plain);
    ascon_seal(key, nonce, data, text, plain.count, tag);
    if (!same(text, sealed) || !same(tag, right))
        return "seal";
    for (uint32_t bit = 0; bit < 128; bit += 7) {
        tag[bit / 8] ^= 1 << bit % 8;
        taken(text, sealed);
        if (ascon_open(key, nonce, data, text, plain.count, tag) || !all_zero(text, plain.count))
            return "another_tag";
        tag[bit / 8] ^= 1 << bit % 8;
    }
    taken(text, sealed);
    if (plain.count > 0) {
        text[plain.count - 1] ^= 0x80;
        if (ascon_open(key, nonce, data, text, plain.count, tag))
            return "another_text";
    }
    taken(text, sealed);
    return ascon_open(key, nonce, data, text, plain.count, tag) && same(text, plain) ? 0 : "open";
}
