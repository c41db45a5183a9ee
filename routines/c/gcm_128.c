/* AES-128-GCM. */
#include "aes128_ctr.h"
#include "aes128_encrypt_2.h"
#include "aes128_expand.h"
#include "gcm.h"

const struct gcm_kind gcm_128 = {aes128_expand, aes128_encrypt_2, aes128_ctr};
