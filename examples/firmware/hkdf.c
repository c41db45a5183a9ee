#include "hkdf.h"

#include "hmac.h"
#include "message.h"

void hkdf_extract(struct hkdf_input salt, struct hkdf_input material, uint8_t key[HKDF_BYTES]) {
    struct hmac mac;
    hmac_init(&mac, &sha_256, salt.bytes, salt.count);
    hmac_update(&mac, material.bytes, material.count);
    hmac_finish(&mac, key);
}

void hkdf_expand(const uint8_t key[HKDF_BYTES], struct hkdf_input info, uint8_t *derived, uint32_t count) {
    struct hmac mac;
    uint8_t block[HKDF_BYTES], number = 0;
    filled(block, 0, HKDF_BYTES);
    while (count > 0) {
        uint32_t taken = count < HKDF_BYTES ? count : HKDF_BYTES;
        hmac_init(&mac, &sha_256, key, HKDF_BYTES);
        hmac_update(&mac, block, number > 0 ? HKDF_BYTES : 0);
        hmac_update(&mac, info.bytes, info.count);
        number++;
        hmac_update(&mac, &number, 1);
        hmac_finish(&mac, block);
        copied(derived, block, taken);
        derived += taken;
        count -= taken;
    }
    wiped(block, sizeof block);
}
