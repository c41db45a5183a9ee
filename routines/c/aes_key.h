/* The AES of the files that say so: keys have AES_KEY_BYTES, 16 unless it is defined as 32 where these files are compiled. */
#ifndef HEPURITA_AES_KEY_H
#define HEPURITA_AES_KEY_H
#include <stdint.h>

#ifndef AES_KEY_BYTES
#define AES_KEY_BYTES 16
#endif

#if AES_KEY_BYTES == 16
#include "aes128_decrypt_2.h"
#include "aes128_encrypt_2.h"
#include "aes128_expand.h"
#define AES_READY_WORDS 88
#define aes_expand aes128_expand
#define aes_encrypt_2 aes128_encrypt_2
#define aes_decrypt_2 aes128_decrypt_2
#elif AES_KEY_BYTES == 32
#include "aes256_decrypt_2.h"
#include "aes256_encrypt_2.h"
#include "aes256_expand.h"
#define AES_READY_WORDS 120
#define aes_expand aes256_expand
#define aes_encrypt_2 aes256_encrypt_2
#define aes_decrypt_2 aes256_decrypt_2
#else
#error "AES_KEY_BYTES is 16 or 32"
#endif

#endif
