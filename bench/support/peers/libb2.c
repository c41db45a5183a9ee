/* Calls of libb2's BLAKE2s, of its portable C, as ours.c has them of the library's. */
#include "blake2s-ref.c"
#include "peers.h"

static blake2s_state state;
void before_blake2s_block(void) {
    memcpy(state.h, data, 32);
    state.t[0] = 64;
}
void call_blake2s_block(void) {
    blake2s_compress(&state, text);
}
void call_blake2s(void) {
    blake2s_init(&state, 32);
    blake2s_update(&state, text, 1024);
    blake2s_final(&state, out, 32);
}
