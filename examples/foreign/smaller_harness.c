#include <stdint.h>

uint64_t smaller(uint64_t one, uint64_t other);

// What is certified: both numbers are secret.
uint64_t one, other, least;

void harness(void) {
    least = smaller(one, other);
}
