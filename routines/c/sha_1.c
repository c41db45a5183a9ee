/* SHA-1, for HMAC-SHA-1 and old protocols: alone it does not resist collisions. */
#include "sha.h"
#include "sha1_block.h"

const struct sha_kind sha_1 = {sha1_block, 64, 20, 5, {0x67452301, 0xefcdab89, 0x98badcfe, 0x10325476, 0xc3d2e1f0}};
