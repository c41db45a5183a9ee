/* HMAC (RFC 2104) with a hash of sha.h, of keys and messages of any length:

       struct hmac mac;
       hmac_init(&mac, &sha_256, key, key_count);
       hmac_update(&mac, bytes, count);     as often as there is more
       hmac_finish(&mac, tag);

   The tag has as many bytes as the hash's digest; compare it by equal_32 or equal_16. Link hmac.c and what sha.h says. Keys and messages
   are secret, their lengths are public. hmac_finish wipes the struct. */
#ifndef HEPURITA_HMAC_H
#define HEPURITA_HMAC_H
#include "sha.h"
#ifdef __cplusplus
extern "C" {
#endif

struct hmac {
    struct sha inner;
    struct sha outer;
};

void hmac_init(struct hmac *mac, const struct sha_kind *kind, const uint8_t *key, uint32_t count);
void hmac_update(struct hmac *mac, const uint8_t *bytes, uint32_t count);
void hmac_finish(struct hmac *mac, uint8_t *tag);

#ifdef __cplusplus
}
#endif
#endif
