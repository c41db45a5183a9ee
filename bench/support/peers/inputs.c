#include "peers.h"

uint8_t key[64], nonce[16], header[64], text[1024], more[1024] __attribute__((aligned(8)));
uint32_t words[64], other_words[64];
uint16_t coefficients[256], other_coefficients[256];
uint8_t data[1024] __attribute__((aligned(8))), out[2048] __attribute__((aligned(8)));
