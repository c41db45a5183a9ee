// What is certified: sealing a text, decrypting one with its check, and a hash.
// secret: key text sealed tag given message digest
#include "ascon.h"

uint8_t key[16], nonce[16] = {1}, data_bytes[20] = {2}, text[37], tag[16], sealed[37], given[16], message[30], digest[32];
bool right;

void harness(void) {
    struct ascon_data data = {data_bytes, sizeof data_bytes};
    struct ascon_hash hash;
    ascon_seal(key, nonce, data, text, sizeof text, tag);
    right = ascon_check(key, nonce, data, sealed, sizeof sealed, given);
    ascon_hash256_init(&hash);
    ascon_update(&hash, message, sizeof message);
    ascon_finish(&hash, digest, sizeof digest);
}
