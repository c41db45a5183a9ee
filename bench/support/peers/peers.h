/* What the calls of bench/peers are given and where they put what comes out. The script fills what is given, with the same
   bytes for ours and for others', and compares `data` and `out` behind the calls. */
#include <stdbool.h>
#include <stddef.h>
#include <stdint.h>

extern uint8_t key[64], nonce[16], header[64], text[1024], more[1024] __attribute__((aligned(8)));
extern uint32_t words[64], other_words[64];
/* Coefficients below 3329. */
extern uint16_t coefficients[256], other_coefficients[256];
/* What a call may change: as text before. */
extern uint8_t data[1024], out[2048];
