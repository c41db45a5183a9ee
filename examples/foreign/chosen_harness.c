#include <stdbool.h>
#include <stdint.h>

uint32_t chosen(bool flag, uint32_t one, uint32_t other);

// What is certified: all three are secret.
bool flag;
uint32_t one, other, taken;

void harness(void) {
    taken = chosen(flag, one, other);
}
