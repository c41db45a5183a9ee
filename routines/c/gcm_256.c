/* AES-256-GCM. */
#include "aes256_ctr.h"
#include "aes256_encrypt_2.h"
#include "aes256_expand.h"
#include "gcm.h"

const struct gcm_kind gcm_256 = {aes256_expand, aes256_encrypt_2, aes256_ctr};
