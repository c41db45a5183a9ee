#include "tls_record.h"

#include "chacha20_poly1305.h"
#include "message.h"

#define APPLICATION_DATA 23
#define TAG 16

/* RFC 8446, section 5.5, allows AES-GCM 2^24.5 records of the longest texts. The other may use all numbers. */
static uint64_t most_records(const struct record_keys *keys) {
    return keys->cipher == AES_128_GCM ? (uint64_t)1 << 24 : UINT64_MAX;
}

void record_init(struct record_keys *keys, enum record_cipher cipher, const uint8_t *key, const uint8_t iv[12]) {
    keys->cipher = cipher;
    keys->number = 0;
    copied(keys->iv, iv, sizeof keys->iv);
    if (cipher == AES_128_GCM)
        gcm_init(&keys->gcm, &gcm_128, key);
    else
        copied(keys->key, key, sizeof keys->key);
}

void record_wipe(struct record_keys *keys) {
    wiped(keys, sizeof *keys);
}

static void nonce_of(const struct record_keys *keys, uint8_t nonce[12]) {
    uint8_t number[8];
    highest_first(number, (uint32_t)(keys->number >> 32));
    highest_first(number + 4, (uint32_t)keys->number);
    copied(nonce, keys->iv, 12);
    added(nonce + 4, number, 8);
}

void protect(const struct record_keys *keys, struct gcm_data header, uint8_t *text, uint32_t count) {
    uint8_t nonce[12];
    nonce_of(keys, nonce);
    if (keys->cipher == AES_128_GCM)
        gcm_seal(&keys->gcm, nonce, header, text, count, text + count);
    else
        seal(keys->key, nonce, (struct associated){header.bytes, header.count}, text, count, text + count);
    wiped(nonce, sizeof nonce);
}

bool unprotect(const struct record_keys *keys, struct gcm_data header, uint8_t *text, uint32_t count) {
    uint8_t nonce[12];
    nonce_of(keys, nonce);
    bool right = keys->cipher == AES_128_GCM
        ? gcm_open(&keys->gcm, nonce, header, text, count, text + count)
        : open_sealed(keys->key, nonce, (struct associated){header.bytes, header.count}, text, count, text + count);
    wiped(nonce, sizeof nonce);
    return right;
}

/* The version is that of TLS 1.2, as the standard has it. */
static void make_header(uint8_t header[RECORD_HEADER], uint32_t inside) {
    header[0] = APPLICATION_DATA;
    header[1] = 3;
    header[2] = 3;
    header[3] = (uint8_t)(inside >> 8);
    header[4] = (uint8_t)inside;
}

uint32_t record_seal(struct record_keys *keys, uint8_t type, uint8_t *record, uint32_t count) {
    if (count > RECORD_MOST || keys->number >= most_records(keys))
        return 0;
    make_header(record, count + RECORD_BEHIND);
    record[RECORD_HEADER + count] = type;
    protect(keys, (struct gcm_data){record, RECORD_HEADER}, record + RECORD_HEADER, count + 1);
    keys->number++;
    return RECORD_HEADER + count + RECORD_BEHIND;
}

/* Where the last byte stands that is not 0, which is the type: zeros behind it hide how long the text is. All bytes are looked at, in
   a time that does not depend on them. */
static uint32_t type_place(const uint8_t *text, uint32_t count) {
    uint32_t place = 0;
    for (uint32_t at = 0; at < count; at++) {
        uint32_t mask = 0u - ((0u - text[at]) >> 31);
        place = (place & ~mask) | (at & mask);
    }
    return place;
}

static bool is_header(const uint8_t header[RECORD_HEADER], uint32_t inside) {
    return header[0] == APPLICATION_DATA && ((uint32_t)header[3] << 8 | header[4]) == inside;
}

bool record_open(struct record_keys *keys, uint8_t *record, uint32_t size, struct record_text *text) {
    if (size < RECORD_HEADER + RECORD_BEHIND || size > RECORD_HEADER + RECORD_MOST + RECORD_BEHIND)
        return false;
    uint8_t *inside = record + RECORD_HEADER;
    uint32_t count = size - RECORD_HEADER - TAG;
    if (!is_header(record, count + TAG) || keys->number == UINT64_MAX)
        return false;
    if (!unprotect(keys, (struct gcm_data){record, RECORD_HEADER}, inside, count))
        return false;
    keys->number++;
    text->count = type_place(inside, count);
    text->type = inside[text->count];
    return text->type != 0;
}
