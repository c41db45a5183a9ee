/* ML-KEM (FIPS 203), whole:

       mlkem_keys(&mlkem_768, d, z, encapsulation_key, decapsulation_key);
       if (mlkem_encapsulate(&mlkem_768, encapsulation_key, message, ciphertext, shared)) ..
       if (mlkem_is_whole(&mlkem_768, decapsulation_key)) ..       once, where the key comes from elsewhere
       mlkem_decapsulate(&mlkem_768, decapsulation_key, ciphertext, shared);

   d, z and message are 32 random bytes each, never used twice, and shared is 32 bytes. How long the others are, in bytes:

       kind           encapsulation_key     decapsulation_key     ciphertext
       mlkem_512      800                   1632                  768
       mlkem_768      1184                  2400                  1088
       mlkem_1024     1568                  3168                  1568

   Link mlkem.c and sha3.c with the routines that begin with mlkem_, keccak_f1600, equal_32 and select_32, and mlkem_512.c, mlkem_768.c or
   mlkem_1024.c; mlkem_sample_cbd3 is for mlkem_512 alone. Random bytes, shared keys, and in the decapsulation key what is not the
   encapsulation key or its digest, are secret. Encapsulation keys and ciphertexts are public, and so is whether a key is refused. Whether a
   ciphertext is a right one is secret: for a wrong one the shared key is another (implicit rejection), in the same steps. The stack that
   a call takes, as gcc 12 compiles it with -O2: 5616 bytes for keys, 6496 to encapsulate, 7264 to decapsulate, whatever the kind. */
#ifndef HEPURITA_MLKEM_H
#define HEPURITA_MLKEM_H
#include <stdbool.h>
#include <stdint.h>
#ifdef __cplusplus
extern "C" {
#endif

/* A parameter set: polynomials of a vector, bits of a coefficient in the ciphertext's two parts, and the noise of keys and vectors. */
struct mlkem_kind {
    uint32_t rank;
    uint32_t u_bits, v_bits;
    uint32_t noise_bytes;
    void (*noise)(const uint8_t *bytes, uint16_t *f);
};

extern const struct mlkem_kind mlkem_512, mlkem_768, mlkem_1024;

/* The two seeds of a key pair: of the matrix, which is public, and of the noise, which is secret. */
struct mlkem_seeds {
    uint8_t matrix[32];
    uint8_t noise[32];
};

void mlkem_keys(
    const struct mlkem_kind *kind, const uint8_t d[32], const uint8_t z[32], uint8_t *encapsulation_key, uint8_t *decapsulation_key
);

/* The two steps of mlkem_keys: certified apart, since the first makes something public of a secret. */
void mlkem_make_seeds(const struct mlkem_kind *kind, const uint8_t d[32], struct mlkem_seeds *seeds);
void mlkem_keys_of_seeds(
    const struct mlkem_kind *kind, const struct mlkem_seeds *seeds, const uint8_t z[32], uint8_t *encapsulation_key,
    uint8_t *decapsulation_key
);

/* False where the key has a coefficient that is not below 3329: then nothing is written. */
bool mlkem_encapsulate(
    const struct mlkem_kind *kind, const uint8_t *encapsulation_key, const uint8_t message[32], uint8_t *ciphertext, uint8_t shared[32]
);

/* Whether the encapsulation key in a decapsulation key has the digest that stands behind it. */
bool mlkem_is_whole(const struct mlkem_kind *kind, const uint8_t *decapsulation_key);

void mlkem_decapsulate(
    const struct mlkem_kind *kind, const uint8_t *decapsulation_key, const uint8_t *ciphertext, uint8_t shared[32]
);

#ifdef __cplusplus
}
#endif
#endif
