/* Records as TLS 1.3 protects them (RFC 8446, sections 5.2 to 5.4), with AES-128-GCM or ChaCha20-Poly1305. The nonce is the IV,
   exclusive-or the number of the record; the header is authenticated; behind the text stands its type, which is encrypted with it.
   Keys, IVs, texts and their types are secret; a record's size and number are public, and whether it is refused. Once it is opened, how
   many bytes its text has is public too. */
#ifndef TLS_RECORD_H
#define TLS_RECORD_H

#include <stdbool.h>
#include <stdint.h>

#include "gcm.h"

/* What a record has before its text and, with the byte of the type, behind it; and the longest text. */
#define RECORD_HEADER 5
#define RECORD_BEHIND 17
#define RECORD_MOST 16384

enum record_cipher { AES_128_GCM, CHACHA20_POLY1305 };

/* One direction of a connection. */
struct record_keys {
    enum record_cipher cipher;
    struct gcm gcm;
    uint8_t key[32];
    uint8_t iv[12];
    uint64_t number;
};

/* A key of 16 or 32 bytes; the next record has the number 0. */
void record_init(struct record_keys *keys, enum record_cipher cipher, const uint8_t *key, const uint8_t iv[12]);
void record_wipe(struct record_keys *keys);

/* Seals in place the text that begins at record + RECORD_HEADER; there is room for RECORD_BEHIND bytes more. It returns the record's size,
   and 0 where the text is too long or the key has sealed as many records as it may: then take new keys. */
uint32_t record_seal(struct record_keys *keys, uint8_t type, uint8_t *record, uint32_t count);

/* What was opened: it begins at record + RECORD_HEADER. */
struct record_text {
    uint8_t type;
    uint32_t count;
};

/* Opens a whole record in place. Where it is refused, end the connection. */
bool record_open(struct record_keys *keys, uint8_t *record, uint32_t size, struct record_text *text);

/* What both are made of, for protocols with other headers: a text with its tag behind it, for the number that is next. */
void protect(const struct record_keys *keys, struct gcm_data header, uint8_t *text, uint32_t count);
bool unprotect(const struct record_keys *keys, struct gcm_data header, uint8_t *text, uint32_t count);

#endif
