/* SHA-224 and SHA-256. */
#include "sha.h"
#include "sha256_block.h"

const struct sha_kind sha_224 = {
    sha256_block, 64, 28, 8,
    {0xc1059ed8, 0x367cd507, 0x3070dd17, 0xf70e5939, 0xffc00b31, 0x68581511, 0x64f98fa7, 0xbefa4fa4}};

const struct sha_kind sha_256 = {
    sha256_block, 64, 32, 8,
    {0x6a09e667, 0xbb67ae85, 0x3c6ef372, 0xa54ff53a, 0x510e527f, 0x9b05688c, 0x1f83d9ab, 0x5be0cd19}};
