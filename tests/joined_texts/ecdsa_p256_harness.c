// What is certified: signing.
// secret: key digest signature
#include "ecdsa_p256.h"

uint8_t key[32], digest[32], signature[64];
bool right;

void harness(void) {
    right = ecdsa_p256_sign(key, digest, signature);
}
