#include "digest_class.h"

// What is certified: the bytes are secret, their count is not.
uint8_t message[20];
uint32_t checksum;

void harness(void) {
    checksum = digest_of(&digest, message, sizeof message);
}
