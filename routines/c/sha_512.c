/* SHA-384 and SHA-512. Of each number of 64 bits the upper word is the first. */
#include "sha.h"
#include "sha512_block.h"

const struct sha_kind sha_384 = {
    sha512_block, 128, 48, 16,
    {0xcbbb9d5d, 0xc1059ed8, 0x629a292a, 0x367cd507, 0x9159015a, 0x3070dd17, 0x152fecd8, 0xf70e5939,
     0x67332667, 0xffc00b31, 0x8eb44a87, 0x68581511, 0xdb0c2e0d, 0x64f98fa7, 0x47b5481d, 0xbefa4fa4}};

const struct sha_kind sha_512 = {
    sha512_block, 128, 64, 16,
    {0x6a09e667, 0xf3bcc908, 0xbb67ae85, 0x84caa73b, 0x3c6ef372, 0xfe94f82b, 0xa54ff53a, 0x5f1d36f1,
     0x510e527f, 0xade682d1, 0x9b05688c, 0x2b3e6c1f, 0x1f83d9ab, 0xfb41bd6b, 0x5be0cd19, 0x137e2179}};
