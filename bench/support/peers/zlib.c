/* A call of zlib's Adler-32, as ours.c has it of the library's. */
#include "zlib.h"
#include "peers.h"

void call_adler32(void) { *(uint32_t *)out = adler32(1, text, 64); }
