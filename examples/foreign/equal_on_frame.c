#include <stdbool.h>
#include <stdint.h>

// The slots of examples/equal_arrays.fact. A bool is a whole word in its slot.
struct frame {
    uint8_t one[8];
    uint8_t other[8];
    uint32_t equal;
};

bool equal_arrays(const uint8_t one[8], const uint8_t other[8]);

void on_frame(struct frame *frame) {
    frame->equal = equal_arrays(frame->one, frame->other);
}
