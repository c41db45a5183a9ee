#include <stdint.h>

// The slots of smaller.fact. A uint64_t has its lower word first.
struct frame {
    uint64_t one;
    uint64_t other;
    uint64_t out;
};

uint64_t smaller(uint64_t one, uint64_t other);

void on_frame(struct frame *frame) {
    frame->out = smaller(frame->one, frame->other);
}
