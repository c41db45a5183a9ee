// What is certified: sealing a text, and decrypting one with its check.
// secret: key text sealed tag given
#include "aes_ccm.h"

uint8_t key[AES_KEY_BYTES], nonce_bytes[13] = {1}, data_bytes[20] = {2}, text[37], tag[8], sealed[37], given[8];
bool right;

void harness(void) {
    struct ccm_nonce nonce = {nonce_bytes, sizeof nonce_bytes, sizeof tag};
    struct ccm_data data = {data_bytes, sizeof data_bytes};
    aes_ccm_seal(key, &nonce, data, text, sizeof text, tag);
    right = aes_ccm_check(key, &nonce, data, sealed, sizeof sealed, given);
}
