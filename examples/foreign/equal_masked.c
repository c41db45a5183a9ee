#include <stdbool.h>
#include <stdint.h>

// Whether two arrays are equal, as in examples/equal_arrays.fact. It looks at all bytes.
bool equal_arrays(const uint8_t one[8], const uint8_t other[8]) {
    uint8_t different = 0;
    for (int i = 0; i < 8; i++)
        different |= one[i] ^ other[i];
    return different == 0;
}
