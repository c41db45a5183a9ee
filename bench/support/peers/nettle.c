/* Calls of Nettle's functions, as ours.c has them of the library's. */
#include "chacha.h"
#include "chacha-internal.h"
#include "hmac.h"
#include "md5.h"
#include "memops.h"
#include "poly1305-internal.h"
#include "salsa20.h"
#include "salsa20-internal.h"
#include "sha1.h"
#include "sha2.h"
#include "sha2-internal.h"
#include "sha3.h"
#include "peers.h"

static uint32_t state[50] __attribute__((aligned(8)));
/* The constants of the hashes are not read from elsewhere: what is copied of them does not change the number of steps. */
static const uint32_t constants_32[64];
static const uint64_t constants_64[80];

static struct chacha_ctx stream;
void call_chacha20_xor(void) {
    chacha_set_key(&stream, key);
    chacha_set_nonce96(&stream, nonce);
    stream.state[12] = 1;
    chacha_crypt32(&stream, 64, data, data);
}
void call_chacha20_blocks(void) {
    chacha_set_key(&stream, key);
    chacha_set_nonce96(&stream, nonce);
    stream.state[12] = 1;
    chacha_crypt32(&stream, 256, data, data);
}
void call_chacha20_block(void) {
    chacha_set_key(&stream, key);
    chacha_set_nonce96(&stream, nonce);
    stream.state[12] = 1;
    _nettle_chacha_core((uint32_t *)out, stream.state, 20);
}
void call_salsa20_core(void) { _nettle_salsa20_core((uint32_t *)data, (uint32_t *)data, 20); }

static struct poly1305_ctx sum;
void call_poly1305_block(void) {
    _nettle_poly1305_set_key(&sum, key);
    _nettle_poly1305_block(&sum, text, 1);
}
void call_poly1305_blocks(void) {
    _nettle_poly1305_set_key(&sum, key);
    for (uint32_t at = 0; at < 256; at += 16)
        _nettle_poly1305_block(&sum, text + at, 1);
}
void before_poly1305_finish(void) {
    _nettle_poly1305_set_key(&sum, key);
    _nettle_poly1305_block(&sum, text, 1);
}
void call_poly1305_finish(void) {
    memcpy(out, key + 16, 16);
    _nettle_poly1305_digest(&sum, (union nettle_block16 *)out);
}
void call_poly1305(void) {
    _nettle_poly1305_set_key(&sum, key);
    for (uint32_t at = 0; at < 64; at += 16)
        _nettle_poly1305_block(&sum, text + at, 1);
    memcpy(out, key + 16, 16);
    _nettle_poly1305_digest(&sum, (union nettle_block16 *)out);
}

void call_sha256_block(void) { _nettle_sha256_compress(state, text, constants_32); }
void call_sha512_block(void) { _nettle_sha512_compress((uint64_t *)state, text, constants_64); }
void call_sha1_block(void) { nettle_sha1_compress(state, text); }
void call_md5_block(void) { nettle_md5_compress(state, text); }
void call_keccak_f1600(void) { sha3_permute((struct sha3_state *)data); }

void call_sha256_short(void) {
    struct sha256_ctx hash;
    sha256_init(&hash);
    sha256_update(&hash, 119, text);
    sha256_digest(&hash, 32, out);
}
void call_sha3_256_short(void) {
    struct sha3_256_ctx hash;
    sha3_256_init(&hash);
    sha3_256_update(&hash, 135, text);
    sha3_256_digest(&hash, 32, out);
}
void call_sha3(void) {
    struct sha3_256_ctx hash;
    sha3_256_init(&hash);
    sha3_256_update(&hash, 1024, text);
    sha3_256_digest(&hash, 32, out);
}
void call_sha_1(void) {
    struct sha1_ctx hash;
    sha1_init(&hash);
    sha1_update(&hash, 1024, text);
    sha1_digest(&hash, 20, out);
}
void call_sha_256(void) {
    struct sha256_ctx hash;
    sha256_init(&hash);
    sha256_update(&hash, 1024, text);
    sha256_digest(&hash, 32, out);
}
void call_sha_512(void) {
    struct sha512_ctx hash;
    sha512_init(&hash);
    sha512_update(&hash, 1024, text);
    sha512_digest(&hash, 64, out);
}
static void hmac(uint32_t count) {
    struct hmac_sha256_ctx mac;
    hmac_sha256_set_key(&mac, 32, key);
    hmac_sha256_update(&mac, count, text);
    hmac_sha256_digest(&mac, 32, out);
}
void call_hmac_sha256(void) { hmac(64); }
void call_hmac(void) { hmac(1024); }

void call_equal_16(void) { out[0] = (uint8_t)memeql_sec(text, more, 16); }
void call_equal_32(void) { out[0] = (uint8_t)memeql_sec(text, more, 32); }
void call_equal_64(void) { out[0] = (uint8_t)memeql_sec(text, more, 64); }
void call_copy_if_32(void) { cnd_memcpy((int)(words[0] & 1), data, text, 32); }
