/* Calls of Mbed TLS's functions, as ours.c has them of the library's. */
#include "mbedtls/constant_time.h"
#include "mbedtls/md5.h"
#include "mbedtls/rsa.h"
#include "mbedtls/sha1.h"
#include "mbedtls/sha256.h"
#include "mbedtls/sha512.h"
#include "mbedtls/xtea.h"
#include "constant_time_internal.h"
#include "peers.h"

void mbedtls_platform_zeroize(void *place, size_t count) {
    volatile unsigned char *bytes = place;
    while (count--)
        *bytes++ = 0;
}

static mbedtls_sha1_context sha1;
static mbedtls_sha256_context sha256;
static mbedtls_sha512_context sha512;
static mbedtls_md5_context md5;

void call_sha256_block(void) { mbedtls_internal_sha256_process(&sha256, text); }
void call_sha512_block(void) { mbedtls_internal_sha512_process(&sha512, text); }
void call_sha1_block(void) { mbedtls_internal_sha1_process(&sha1, text); }
void call_md5_block(void) { mbedtls_internal_md5_process(&md5, text); }
void call_sha256_short(void) { mbedtls_sha256_ret(text, 119, out, 0); }
void call_sha_1(void) { mbedtls_sha1_ret(text, 1024, out); }
void call_sha_256(void) { mbedtls_sha256_ret(text, 1024, out, 0); }
void call_sha_512(void) { mbedtls_sha512_ret(text, 1024, out, 0); }

/* XTEA's words have their highest byte first there. */
static uint8_t block[8];
static mbedtls_xtea_context xtea;
void call_xtea_encrypt(void) {
    mbedtls_xtea_setup(&xtea, key);
    mbedtls_xtea_crypt_ecb(&xtea, MBEDTLS_XTEA_ENCRYPT, block, block);
}
void call_xtea_decrypt(void) {
    mbedtls_xtea_setup(&xtea, key);
    mbedtls_xtea_crypt_ecb(&xtea, MBEDTLS_XTEA_DECRYPT, block, block);
}

void call_equal_16(void) { out[0] = mbedtls_ct_memcmp(text, more, 16) == 0; }
void call_equal_32(void) { out[0] = mbedtls_ct_memcmp(text, more, 32) == 0; }
void call_equal_64(void) { out[0] = mbedtls_ct_memcmp(text, more, 64) == 0; }
void call_copy_if_32(void) { mbedtls_ct_memcpy_if_eq(data, text, 32, words[0] & 1, 1); }

static uint8_t message[53];
void call_pkcs1_unpad(void) {
    size_t count;
    mbedtls_ct_rsaes_pkcs1_v15_unpadding(MBEDTLS_RSA_PRIVATE, text, 64, message, 53, &count);
}
static uint8_t mac[32];
void call_tls_mac_check_20(void) {
    mbedtls_ct_memcpy_offset(mac, text, 256 - (words[0] & 255), 0, 260, 20);
    out[0] = mbedtls_ct_memcmp(mac, more, 20) == 0;
}
void call_tls_mac_check_32(void) {
    mbedtls_ct_memcpy_offset(mac, text, 256 - (words[0] & 255), 0, 256, 32);
    out[0] = mbedtls_ct_memcmp(mac, more, 32) == 0;
}
