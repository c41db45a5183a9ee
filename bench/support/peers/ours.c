/* Calls of the library's routines: call_NAME is counted, and before_NAME, where there is one, makes ready what it needs. */
#include "peers.h"
#include "routines.h"

static uint32_t round_keys[120], state[50], sum[10], points[3][32], bytes_of_point[16];
static uint8_t counter[16];

/* Stream ciphers. */

void call_chacha20_block(void) { chacha20_block(key, 1, nonce, out); }
void call_chacha20_xor(void) { chacha20_xor(key, 1, nonce, data, 64); }
void call_chacha20_blocks(void) { chacha20_blocks(key, 1, nonce, data, 256); }
void call_hchacha20(void) { hchacha20(key, nonce, out); }
void call_salsa20_block(void) { salsa20_block(key, nonce, words, out); }
void call_salsa20_core(void) { salsa20_core(data); }
void call_hsalsa20(void) { hsalsa20(key, nonce, out); }

/* Authentication. */

void call_poly1305(void) { poly1305(key, text, 64, out); }
void call_poly1305_block(void) { poly1305_block(key, text, 16, sum); }
void call_poly1305_blocks(void) { poly1305_blocks(key, text, 256, sum); }
void before_poly1305_finish(void) { poly1305_blocks(key, text, 16, sum); }
void call_poly1305_finish(void) { poly1305_finish(key, sum, out); }
void call_hmac_sha256(void) { hmac_sha256(key, 32, text, 64, out); }
void call_siphash24(void) { siphash24(key, text, 63, out); }
void call_ghash_block(void) { ghash_block(key, text, data); }
void call_ghash_block_products(void) { ghash_block_products(key, text, data); }
void call_ghash_blocks(void) { ghash_blocks(key, text, 256, data); }

/* Hashes. */

void call_sha256_block(void) { sha256_block(state, text); }
void call_sha256_short(void) { sha256_short(text, 119, out); }
void call_sha512_block(void) { sha512_block(state, text); }
void call_sha1_block(void) { sha1_block(state, text); }
void call_md5_block(void) { md5_block(state, text); }
void call_blake2s_block(void) { blake2s_block((uint32_t *)data, text, (const uint32_t[2]){64, 0}, false); }
void call_keccak_f1600(void) { keccak_f1600((uint32_t *)data); }
void call_sha3_256_short(void) { sha3_256_short(text, 135, out); }

/* Block ciphers. */

void call_aes128_encrypt(void) { aes128_encrypt(key, data); }
void call_aes128_decrypt(void) { aes128_decrypt(key, data); }
void call_aes256_encrypt(void) { aes256_encrypt(key, data); }
void call_aes256_decrypt(void) { aes256_decrypt(key, data); }
void call_aes128_expand(void) { aes128_expand(key, round_keys); }
void call_aes256_expand(void) { aes256_expand(key, round_keys); }
void before_aes128_encrypt_2(void) { aes128_expand(key, round_keys); }
void call_aes128_encrypt_2(void) { aes128_encrypt_2(round_keys, data); }
void before_aes128_decrypt_2(void) { aes128_expand(key, round_keys); }
void call_aes128_decrypt_2(void) { aes128_decrypt_2(round_keys, data); }
void before_aes128_ctr(void) { aes128_expand(key, round_keys); }
void call_aes128_ctr(void) { aes128_ctr(round_keys, counter, data, 256); }
void before_aes256_encrypt_2(void) { aes256_expand(key, round_keys); }
void call_aes256_encrypt_2(void) { aes256_encrypt_2(round_keys, data); }
void before_aes256_decrypt_2(void) { aes256_expand(key, round_keys); }
void call_aes256_decrypt_2(void) { aes256_decrypt_2(round_keys, data); }
void before_aes256_ctr(void) { aes256_expand(key, round_keys); }
void call_aes256_ctr(void) { aes256_ctr(round_keys, counter, data, 256); }
void call_xtea_encrypt(void) { xtea_encrypt((const uint32_t *)key, (uint32_t *)out); }
void call_xtea_decrypt(void) { xtea_decrypt((const uint32_t *)key, (uint32_t *)out); }

/* Public keys. */

void call_x25519(void) { x25519(key, text, out); }
static void below(void) {
    words[7] &= 0x7fffffff;
    other_words[7] &= 0x7fffffff;
}
void before_f25519_add(void) { below(); }
void call_f25519_add(void) { f25519_add(words, other_words, (uint32_t *)out); }
void before_f25519_subtract(void) { below(); }
void call_f25519_subtract(void) { f25519_subtract(words, other_words, (uint32_t *)out); }
void before_f25519_multiply(void) { below(); }
void call_f25519_multiply(void) { f25519_multiply(words, other_words, (uint32_t *)out); }
void before_f25519_invert(void) { below(); }
void call_f25519_invert(void) { f25519_invert(words, (uint32_t *)out); }
void call_ed25519_reduce(void) { ed25519_reduce(text, out); }
void call_ed25519_multiply_add(void) { ed25519_multiply_add(text, text + 32, text + 64, out); }

static const uint8_t ed25519_base[32] = {0x58, [1 ... 31] = 0x66};
void call_ed25519_decode(void) { out[0] = ed25519_decode(ed25519_base, (uint8_t *)bytes_of_point); }
void before_ed25519_scalar_multiply(void) { ed25519_decode(ed25519_base, (uint8_t *)bytes_of_point); }
void call_ed25519_scalar_multiply(void) {
    key[31] &= 0x7f;
    ed25519_scalar_multiply(key, (const uint8_t *)bytes_of_point, (uint8_t *)points);
}
void call_ed25519_point_add(void) { ed25519_point_add(words, words, points[0]); }

void call_p256_add(void) { p256_add(words, other_words, state); }
void call_p256_subtract(void) { p256_subtract(words, other_words, state); }
void call_p256_multiply(void) { p256_multiply(words, other_words, state); }
void call_p256_point_add(void) { p256_point_add(words, other_words, points[0]); }

static const uint8_t p256_base[64] = {
    0x6b, 0x17, 0xd1, 0xf2, 0xe1, 0x2c, 0x42, 0x47, 0xf8, 0xbc, 0xe6, 0xe5, 0x63, 0xa4, 0x40, 0xf2,
    0x77, 0x03, 0x7d, 0x81, 0x2d, 0xeb, 0x33, 0xa0, 0xf4, 0xa1, 0x39, 0x45, 0xd8, 0x98, 0xc2, 0x96,
    0x4f, 0xe3, 0x42, 0xe2, 0xfe, 0x1a, 0x7f, 0x9b, 0x8e, 0xe7, 0xeb, 0x4a, 0x7c, 0x0f, 0x9e, 0x16,
    0x2b, 0xce, 0x33, 0x57, 0x6b, 0x31, 0x5e, 0xce, 0xcb, 0xb6, 0x40, 0x68, 0x37, 0xbf, 0x51, 0xf5};
void call_p256_scalar_multiply(void) {
    key[0] &= 0x7f;
    p256_scalar_multiply(key, p256_base, out);
}
void call_modular_power_128(void) {
    static uint32_t base[8], exponent[8], modulus[8];
    for (uint32_t i = 0; i < 8; i++) {
        base[i] = words[i] & 0x7fff, exponent[i] = words[8 + i] & 0xffff, modulus[i] = words[16 + i] & 0xffff;
    }
    modulus[0] |= 1;
    modulus[7] |= 0x8000;
    modular_power_128(base, exponent, modulus, state);
}

void call_mlkem_ntt(void) { mlkem_ntt(coefficients); }
void call_mlkem_inverse_ntt(void) { mlkem_inverse_ntt(coefficients); }
void call_mlkem_multiply_ntts(void) { mlkem_multiply_ntts(coefficients, other_coefficients, (uint16_t *)data); }
void call_mlkem_sample_cbd2(void) { mlkem_sample_cbd2(text, (uint16_t *)data); }
void call_mlkem_sample_cbd3(void) { mlkem_sample_cbd3(text, (uint16_t *)data); }
void call_mlkem_encode_12(void) { mlkem_encode_12(coefficients, out); }
void call_mlkem_decode_12(void) { mlkem_decode_12(text, (uint16_t *)data); }
void call_mlkem_message(void) { mlkem_message(key, (uint16_t *)out); }
void call_mlkem_add(void) { mlkem_add(coefficients, other_coefficients); }
void call_mlkem_subtract(void) { mlkem_subtract(coefficients, other_coefficients); }

/* Comparing and choosing, arithmetic, text. */

void call_equal_16(void) { out[0] = equal_16(text, more); }
void call_equal_32(void) { out[0] = equal_32(text, more); }
void call_equal_64(void) { out[0] = equal_64(text, more); }
void call_is_zero_32(void) { out[0] = is_zero_32(text); }
void call_compare_32(void) { points[0][0] = compare_32(text, more); }
void call_less_32(void) { points[0][0] = less_32(text, more); }
void call_copy_if_32(void) { copy_if_32(words[0] & 1, text, data); }
void call_divide_32(void) { divide_32(words[0], words[1], (uint32_t *)out); }
void call_adler32(void) { *(uint32_t *)out = adler32(1, text, 64); }
void call_hex_encode(void) { hex_encode(text, out); }
void before_hex_decode(void) { hex_encode(text, (uint8_t *)points); }
void call_hex_decode(void) { hex_decode((uint8_t *)points, out); }
void call_base64_encode(void) { base64_encode(text, 48, out); }
void before_base64_decode(void) { base64_encode(text, 48, (uint8_t *)points); }
void call_base64_decode(void) { base64_decode((uint8_t *)points, 64, out); }
void call_pkcs1_unpad(void) { pkcs1_unpad(text, (uint8_t *)points); }
void call_tls_mac_check_20(void) { out[0] = tls_mac_check_20(text, words[0] & 255, more); }
void call_tls_mac_check_32(void) { out[0] = tls_mac_check_32(text, words[0] & 255, more); }

/* Messages of 1,024 bytes, and signatures, by the files of routines/c. */

void call_sha_1(void) {
    struct sha hash;
    sha_init(&hash, &sha_1);
    sha_update(&hash, text, 1024);
    sha_finish(&hash, out);
}
void call_sha_256(void) {
    struct sha hash;
    sha_init(&hash, &sha_256);
    sha_update(&hash, text, 1024);
    sha_finish(&hash, out);
}
void call_sha_512(void) {
    struct sha hash;
    sha_init(&hash, &sha_512);
    sha_update(&hash, text, 1024);
    sha_finish(&hash, out);
}
void call_hmac(void) {
    struct hmac mac;
    hmac_init(&mac, &sha_256, key, 32);
    hmac_update(&mac, text, 1024);
    hmac_finish(&mac, out);
}
void call_blake2s(void) {
    struct blake2s hash;
    blake2s_init(&hash, 32, key, 0);
    blake2s_update(&hash, text, 1024);
    blake2s_finish(&hash, out);
}
void call_sha3(void) {
    struct sha3 hash;
    sha3_init(&hash, 32);
    sha3_update(&hash, text, 1024);
    sha3_finish(&hash, out);
}
void call_siphash(void) {
    struct siphash hash;
    siphash_init(&hash, key);
    siphash_update(&hash, text, 1024);
    siphash_finish(&hash, out);
}
void call_gcm(void) {
    struct gcm gcm;
    gcm_init(&gcm, &gcm_128, key);
    gcm_seal(&gcm, nonce, (struct gcm_data){header, 13}, data, 1024, out);
    gcm_wipe(&gcm);
}
void call_aes_ccm(void) {
    struct ccm_nonce with = {nonce, 13, 16};
    aes_ccm_seal(key, &with, (struct ccm_data){header, 13}, data, 1024, out);
}
void call_ecdsa_p256_sign(void) {
    key[0] &= 0x7f;
    ecdsa_p256_sign(key, text, out);
}
static uint8_t public_key[64], signature[64];
void before_ecdsa_p256_verify(void) {
    key[0] &= 0x7f;
    p256_public_key(key, public_key);
    ecdsa_p256_sign(key, text, signature);
}
void call_ecdsa_p256_verify(void) { out[0] = ecdsa_p256_verify(public_key, text, signature); }
void before_ed25519_sign(void) { ed25519_public_key(key, public_key); }
void call_ed25519_sign(void) { ed25519_sign(key, public_key, text, 1024, out); }
