#include <stdbool.h>
#include <stdint.h>

// Whether two arrays are equal, as in examples/equal_arrays.fact. It is done at the first difference.
bool equal_arrays(const uint8_t one[8], const uint8_t other[8]) {
    for (int i = 0; i < 8; i++)
        if (one[i] != other[i])
            return false;
    return true;
}
