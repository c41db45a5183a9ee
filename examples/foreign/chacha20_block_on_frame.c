#include <stdint.h>

// The slots of examples/chacha20_block.fact.
struct frame {
    uint32_t key[8];
    uint32_t counter;
    uint32_t nonce[3];
    uint32_t out[16];
};

void chacha20_block(const uint32_t key[8], uint32_t counter, const uint32_t nonce[3], uint32_t out[16]);

void on_frame(struct frame *frame) {
    chacha20_block(frame->key, frame->counter, frame->nonce, frame->out);
}
