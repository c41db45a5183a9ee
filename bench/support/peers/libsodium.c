/* Calls of libsodium's functions, of its portable C, as ours.c has them of the library's. */
#include "sodium.h"
#include "crypto_onetimeauth/poly1305/donna/poly1305_donna.h"
#include "crypto_stream/chacha20/ref/chacha20_ref.h"
#include "private/ed25519_ref10.h"
/* Of X25519 one function alone, without what the others of its file need: a table of multiples. */
#define crypto_scalarmult_curve25519_ref10_implementation all_of_x25519
#include "crypto_scalarmult/curve25519/ref10/x25519_ref10.c"
#include "peers.h"

#define CHACHA20 crypto_stream_chacha20_ref_implementation
#define POLY1305 crypto_onetimeauth_poly1305_donna_implementation

/* What encodings call where there is no room. */
void sodium_misuse(void) {
    for (;;) { }
}

void call_chacha20_block(void) { CHACHA20.stream_ietf_ext_xor_ic(out, out, 64, nonce, 1, key); }
void call_chacha20_xor(void) { CHACHA20.stream_ietf_ext_xor_ic(data, data, 64, nonce, 1, key); }
void call_chacha20_blocks(void) { CHACHA20.stream_ietf_ext_xor_ic(data, data, 256, nonce, 1, key); }
void call_hchacha20(void) { crypto_core_hchacha20(out, nonce, key, NULL); }
static uint8_t place[16];
void before_salsa20_block(void) {
    for (uint32_t i = 0; i < 16; i++)
        place[i] = i < 8 ? nonce[i] : ((uint8_t *)words)[i - 8];
}
void call_salsa20_block(void) { crypto_core_salsa20(out, place, key, NULL); }
void call_hsalsa20(void) { crypto_core_hsalsa20(out, nonce, key, NULL); }

static crypto_onetimeauth_poly1305_state sum;
void call_poly1305(void) { POLY1305.onetimeauth(out, text, 64, key); }
void call_poly1305_block(void) {
    POLY1305.onetimeauth_init(&sum, key);
    POLY1305.onetimeauth_update(&sum, text, 16);
}
void call_poly1305_blocks(void) {
    POLY1305.onetimeauth_init(&sum, key);
    POLY1305.onetimeauth_update(&sum, text, 256);
}
void before_poly1305_finish(void) {
    POLY1305.onetimeauth_init(&sum, key);
    POLY1305.onetimeauth_update(&sum, text, 16);
}
void call_poly1305_finish(void) { POLY1305.onetimeauth_final(&sum, out); }

static void hmac(uint32_t count) {
    crypto_auth_hmacsha256_state mac;
    crypto_auth_hmacsha256_init(&mac, key, 32);
    crypto_auth_hmacsha256_update(&mac, text, count);
    crypto_auth_hmacsha256_final(&mac, out);
}
void call_hmac_sha256(void) { hmac(64); }
void call_hmac(void) { hmac(1024); }
void call_siphash24(void) { crypto_shorthash_siphash24(out, text, 63, key); }
void call_siphash(void) { crypto_shorthash_siphash24(out, text, 1024, key); }
void call_sha256_short(void) { crypto_hash_sha256(out, text, 119); }
void call_sha_256(void) { crypto_hash_sha256(out, text, 1024); }
void call_sha_512(void) { crypto_hash_sha512(out, text, 1024); }

void call_x25519(void) { crypto_scalarmult_curve25519_ref10(out, key, text); }

/* From bytes to bytes, as ours are from words to words, below 2^255 here. */
static uint8_t *const left_bytes = (uint8_t *)words, *const right_bytes = (uint8_t *)other_words;
static fe25519 left, right, result;
static void below(void) {
    words[7] &= 0x7fffffff;
    other_words[7] &= 0x7fffffff;
}
static void taken(void) {
    fe25519_frombytes(left, left_bytes);
    fe25519_frombytes(right, right_bytes);
}
void before_f25519_add(void) { below(); }
void call_f25519_add(void) {
    taken();
    fe25519_add(result, left, right);
    fe25519_tobytes(out, result);
}
void before_f25519_subtract(void) { below(); }
void call_f25519_subtract(void) {
    taken();
    fe25519_sub(result, left, right);
    fe25519_tobytes(out, result);
}
void before_f25519_multiply(void) { below(); }
void call_f25519_multiply(void) {
    taken();
    fe25519_mul(result, left, right);
    fe25519_tobytes(out, result);
}
void before_f25519_invert(void) { below(); }
void call_f25519_invert(void) {
    fe25519_frombytes(left, left_bytes);
    fe25519_invert(result, left);
    fe25519_tobytes(out, result);
}

static const uint8_t ed25519_base[32] = {0x58, [1 ... 31] = 0x66};
static ge25519_p3 point, sum_of_points;
void call_ed25519_reduce(void) {
    sc25519_reduce(text);
    for (uint32_t i = 0; i < 32; i++)
        out[i] = text[i];
}
void call_ed25519_multiply_add(void) { sc25519_muladd(out, text, text + 32, text + 64); }
void call_ed25519_decode(void) { out[0] = ge25519_frombytes(&point, ed25519_base) == 0; }
void before_ed25519_scalar_multiply(void) { ge25519_frombytes(&point, ed25519_base); }
void call_ed25519_scalar_multiply(void) {
    static uint8_t encoded[32];
    key[31] &= 0x7f;
    ge25519_scalarmult(&sum_of_points, key, &point);
    ge25519_p3_tobytes(encoded, &sum_of_points);
}
void before_ed25519_point_add(void) { ge25519_frombytes(&point, ed25519_base); }
void call_ed25519_point_add(void) {
    ge25519_cached cached;
    ge25519_p1p1 added;
    ge25519_p3_to_cached(&cached, &point);
    ge25519_add(&added, &point, &cached);
    ge25519_p1p1_to_p3(&sum_of_points, &added);
}

/* Signing takes the seed with the public key behind it. */
static uint8_t pair[64], public_key[32];
void before_ed25519_sign(void) { crypto_sign_ed25519_seed_keypair(public_key, pair, key); }
void call_ed25519_sign(void) { crypto_sign_ed25519_detached(out, NULL, text, 1024, pair); }

void call_equal_16(void) { out[0] = crypto_verify_16(text, more) == 0; }
void call_equal_32(void) { out[0] = crypto_verify_32(text, more) == 0; }
void call_equal_64(void) { out[0] = crypto_verify_64(text, more) == 0; }
void call_is_zero_32(void) { out[0] = sodium_is_zero(text, 32); }
static int order;
void call_compare_32(void) { order = sodium_compare(text, more, 32); }
void call_less_32(void) { order = sodium_compare(text, more, 32); }

static char digits[65];
void before_hex_encode(void) { digits[0] = 0; }
void call_hex_encode(void) { sodium_bin2hex((char *)out, 65, text, 32); }
void before_hex_decode(void) { sodium_bin2hex(digits, 65, text, 32); }
void call_hex_decode(void) {
    size_t count;
    sodium_hex2bin(out, 32, digits, 64, NULL, &count, NULL);
}
void call_base64_encode(void) { sodium_bin2base64((char *)out, 65, text, 48, sodium_base64_VARIANT_ORIGINAL); }
void before_base64_decode(void) { sodium_bin2base64(digits, 65, text, 48, sodium_base64_VARIANT_ORIGINAL); }
void call_base64_decode(void) {
    size_t count;
    sodium_base642bin(out, 48, digits, 64, NULL, &count, NULL, sodium_base64_VARIANT_ORIGINAL);
}
