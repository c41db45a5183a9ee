// What is certified: signing.
// secret: seed message signature
#include "ed25519.h"

uint8_t seed[32], public_key[32] = {1}, message[40], signature[64];

void harness(void) {
    ed25519_sign(seed, public_key, message, sizeof message, signature);
}
