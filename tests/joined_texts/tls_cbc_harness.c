// What is certified: sealing a record, and decrypting one with the check of its padding and its MAC.
// secret: key mac_key bytes text
#include "tls_cbc.h"

uint8_t key[AES_KEY_BYTES], mac_key[TLS_MAC_BYTES], bytes[320], text[128];
struct tls_record record;
uint32_t content;
bool right;

void harness(void) {
    tls_cbc_seal(key, mac_key, &record, text, 70);
    right = tls_cbc_check(key, mac_key, &record, bytes, sizeof bytes, &content);
}
