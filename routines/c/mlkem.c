/* What mlkem.h says, around the routines of polynomials. Of what is secret C moves bytes, and packs and unpacks coefficients by shifts;
   what a compiler could make a branch (reductions, comparisons, choices) is in routines. Rejected samples are of the public matrix.

   tests/messages certifies, as gcc 12 compiles it with -O2, each in one run for one matrix: mlkem_make_seeds, and mlkem_keys_of_seeds with
   the noise's seed and z unknown; mlkem_encapsulate with the message unknown; and mlkem_decapsulate with all of the key but the matrix's
   seed, and the ciphertext, unknown. */
#include "mlkem.h"

#include "equal_32.h"
#include "message.h"
#include "mlkem_add.h"
#include "mlkem_compress.h"
#include "mlkem_decode_12.h"
#include "mlkem_decompress.h"
#include "mlkem_encode_12.h"
#include "mlkem_inverse_ntt.h"
#include "mlkem_message.h"
#include "mlkem_multiply_ntts.h"
#include "mlkem_ntt.h"
#include "mlkem_sample_cbd2.h"
#include "mlkem_subtract.h"
#include "select_32.h"
#include "sha3.h"

#define MOST_RANK 4
#define MOST_CIPHERTEXT 1568
#define PRIME 3329
#define CODED 384 /* bytes of a polynomial with 12 bits for each coefficient */

typedef uint16_t polynomial[256];

/* Places of a key's parts, and sizes. */
static uint32_t vector_bytes(const struct mlkem_kind *kind) {
    return CODED * kind->rank;
}

static uint32_t public_bytes(const struct mlkem_kind *kind) {
    return vector_bytes(kind) + 32;
}

static uint32_t u_bytes(const struct mlkem_kind *kind) {
    return 32 * kind->u_bits;
}

static uint32_t ciphertext_bytes(const struct mlkem_kind *kind) {
    return kind->rank * u_bytes(kind) + 32 * kind->v_bits;
}

/* G: 64 bytes of two texts of which the first has 32. */
static void hashed_in_two(const uint8_t first[32], const uint8_t *more, uint32_t count, uint8_t digest[64]) {
    struct sha3 hash;
    sha3_init(&hash, 64);
    sha3_update(&hash, first, 32);
    sha3_update(&hash, more, count);
    sha3_finish(&hash, digest);
}

/* H: the digest of an encapsulation key. */
static void hashed_key(const struct mlkem_kind *kind, const uint8_t *encapsulation_key, uint8_t digest[32]) {
    struct sha3 hash;
    sha3_init(&hash, 32);
    sha3_update(&hash, encapsulation_key, public_bytes(kind));
    sha3_finish(&hash, digest);
}

/* J and PRF: bytes from 32 and some more. */
static void squeezed(const uint8_t first[32], const uint8_t *more, uint32_t count, uint8_t *bytes, uint32_t wanted) {
    struct sha3 hash;
    shake_init(&hash, 256);
    sha3_update(&hash, first, 32);
    sha3_update(&hash, more, count);
    shake_finish(&hash);
    shake_squeeze(&hash, bytes, wanted);
    sha3_wipe(&hash);
}

/* An entry of the matrix, which is public: so are the coefficients that are rejected. */
static void sampled(polynomial f, const uint8_t seed[32], uint32_t column, uint32_t row) {
    struct sha3 hash;
    uint8_t bytes[3] = {(uint8_t)column, (uint8_t)row, 0};
    uint32_t count = 0;
    shake_init(&hash, 128);
    sha3_update(&hash, seed, 32);
    sha3_update(&hash, bytes, 2);
    shake_finish(&hash);
    while (count < 256) {
        shake_squeeze(&hash, bytes, 3);
        uint32_t one = bytes[0] | (uint32_t)(bytes[1] & 15) << 8, other = bytes[1] >> 4 | (uint32_t)bytes[2] << 4;
        if (one < PRIME)
            f[count++] = (uint16_t)one;
        if (other < PRIME && count < 256)
            f[count++] = (uint16_t)other;
    }
}

/* Noise with so many random bytes, by the seed and a number. */
static void noise(polynomial f, const uint8_t seed[32], uint32_t number, uint32_t bytes, void (*sample)(const uint8_t *, uint16_t *)) {
    uint8_t random[192], last = (uint8_t)number;
    squeezed(seed, &last, 1, random, bytes);
    sample(random, f);
    wiped(random, sizeof random);
}

static void small_noise(polynomial f, const uint8_t seed[32], uint32_t number) {
    noise(f, seed, number, 128, mlkem_sample_cbd2);
}

static void transformed_noise(const struct mlkem_kind *kind, polynomial f, const uint8_t seed[32], uint32_t number) {
    noise(f, seed, number, kind->noise_bytes, kind->noise);
    mlkem_ntt(f);
}

static void transformed_noises(const struct mlkem_kind *kind, polynomial *vector, const uint8_t seed[32]) {
    for (uint32_t at = 0; at < kind->rank; at++)
        transformed_noise(kind, vector[at], seed, at);
}

/* sum = sum + f g */
static void add_product(polynomial sum, const polynomial f, const polynomial g) {
    polynomial product;
    mlkem_multiply_ntts(f, g, product);
    mlkem_add(sum, product);
    wiped(product, sizeof product);
}

static void cleared(polynomial f) {
    filled((uint8_t *)f, 0, sizeof(polynomial));
}

/* Coefficients of so many bits to bytes and back, the lowest first. */
static void packed(uint8_t *bytes, const polynomial f, uint32_t bits) {
    uint32_t held = 0, count = 0;
    for (uint32_t at = 0; at < 256; at++) {
        held |= (uint32_t)f[at] << count;
        for (count += bits; count >= 8; count -= 8) {
            *bytes++ = (uint8_t)held;
            held >>= 8;
        }
    }
}

static void unpacked(polynomial f, const uint8_t *bytes, uint32_t bits) {
    uint32_t held = 0, count = 0;
    for (uint32_t at = 0; at < 256; at++) {
        for (; count < bits; count += 8)
            held |= (uint32_t)*bytes++ << count;
        f[at] = (uint16_t)(held & ((1u << bits) - 1));
        held >>= bits;
        count -= bits;
    }
}

void mlkem_make_seeds(const struct mlkem_kind *kind, const uint8_t d[32], struct mlkem_seeds *seeds) {
    uint8_t both[64], rank = (uint8_t)kind->rank;
    hashed_in_two(d, &rank, 1, both);
    copied(seeds->matrix, both, 32);
    copied(seeds->noise, both + 32, 32);
    wiped(both, sizeof both);
}

/* A row of the matrix times the secret vector, and noise. */
static void public_row(const struct mlkem_kind *kind, const struct mlkem_seeds *seeds, polynomial *secret, uint32_t row, uint8_t *coded) {
    polynomial entry, sum;
    transformed_noise(kind, sum, seeds->noise, kind->rank + row);
    for (uint32_t column = 0; column < kind->rank; column++) {
        sampled(entry, seeds->matrix, column, row);
        add_product(sum, entry, secret[column]);
    }
    mlkem_encode_12(sum, coded);
    wiped(sum, sizeof sum);
}

void mlkem_keys_of_seeds(
    const struct mlkem_kind *kind, const struct mlkem_seeds *seeds, const uint8_t z[32], uint8_t *encapsulation_key,
    uint8_t *decapsulation_key
) {
    polynomial secret[MOST_RANK];
    transformed_noises(kind, secret, seeds->noise);
    for (uint32_t row = 0; row < kind->rank; row++) {
        mlkem_encode_12(secret[row], decapsulation_key + CODED * row);
        public_row(kind, seeds, secret, row, encapsulation_key + CODED * row);
    }
    wiped(secret, sizeof secret);
    copied(encapsulation_key + vector_bytes(kind), seeds->matrix, 32);
    uint8_t *place = decapsulation_key + vector_bytes(kind);
    copied(place, encapsulation_key, public_bytes(kind));
    hashed_key(kind, encapsulation_key, place + public_bytes(kind));
    copied(place + public_bytes(kind) + 32, z, 32);
}

void mlkem_keys(
    const struct mlkem_kind *kind, const uint8_t d[32], const uint8_t z[32], uint8_t *encapsulation_key, uint8_t *decapsulation_key
) {
    struct mlkem_seeds seeds;
    mlkem_make_seeds(kind, d, &seeds);
    mlkem_keys_of_seeds(kind, &seeds, z, encapsulation_key, decapsulation_key);
    wiped(&seeds, sizeof seeds);
}

/* The ciphertext's first part: a column of the matrix times the vector, and noise. */
static void encrypt_u(
    const struct mlkem_kind *kind, const uint8_t *key, const uint8_t coins[32], polynomial *vector, uint32_t at, uint8_t *u
) {
    polynomial sum, other;
    cleared(sum);
    for (uint32_t row = 0; row < kind->rank; row++) {
        sampled(other, key + vector_bytes(kind), at, row);
        add_product(sum, other, vector[row]);
    }
    mlkem_inverse_ntt(sum);
    small_noise(other, coins, kind->rank + at);
    mlkem_add(sum, other);
    mlkem_compress(sum, kind->u_bits);
    packed(u, sum, kind->u_bits);
    wiped(sum, sizeof sum);
    wiped(other, sizeof other);
}

/* Its second part: the key times the vector, noise, and the message. */
static void encrypt_v(
    const struct mlkem_kind *kind, const uint8_t *key, const uint8_t message[32], const uint8_t coins[32], polynomial *vector, uint8_t *v
) {
    polynomial sum, other;
    cleared(sum);
    for (uint32_t at = 0; at < kind->rank; at++) {
        mlkem_decode_12(key + CODED * at, other);
        add_product(sum, other, vector[at]);
    }
    mlkem_inverse_ntt(sum);
    small_noise(other, coins, 2 * kind->rank);
    mlkem_add(sum, other);
    mlkem_message(message, other);
    mlkem_add(sum, other);
    mlkem_compress(sum, kind->v_bits);
    packed(v, sum, kind->v_bits);
    wiped(sum, sizeof sum);
    wiped(other, sizeof other);
}

static void encrypt(
    const struct mlkem_kind *kind, const uint8_t *key, const uint8_t message[32], const uint8_t coins[32], uint8_t *ciphertext
) {
    polynomial vector[MOST_RANK];
    transformed_noises(kind, vector, coins);
    for (uint32_t at = 0; at < kind->rank; at++)
        encrypt_u(kind, key, coins, vector, at, ciphertext + u_bytes(kind) * at);
    encrypt_v(kind, key, message, coins, vector, ciphertext + u_bytes(kind) * kind->rank);
    wiped(vector, sizeof vector);
}

/* Not inlined, so that its polynomials have left the stack before others are there. */
__attribute__((noinline)) static void decrypt(
    const struct mlkem_kind *kind, const uint8_t *key, const uint8_t *ciphertext, uint8_t message[32]
) {
    polynomial sum, u, factor;
    cleared(sum);
    for (uint32_t at = 0; at < kind->rank; at++) {
        unpacked(u, ciphertext + u_bytes(kind) * at, kind->u_bits);
        mlkem_decompress(u, kind->u_bits);
        mlkem_ntt(u);
        mlkem_decode_12(key + CODED * at, factor);
        add_product(sum, factor, u);
    }
    mlkem_inverse_ntt(sum);
    unpacked(u, ciphertext + u_bytes(kind) * kind->rank, kind->v_bits);
    mlkem_decompress(u, kind->v_bits);
    mlkem_subtract(u, sum);
    mlkem_compress(u, 1);
    packed(message, u, 1);
    wiped(sum, sizeof sum);
    wiped(u, sizeof u);
    wiped(factor, sizeof factor);
}

/* Whether a public polynomial is below the prime: decoding reduces what is not, which is then encoded otherwise. */
static bool is_reduced(const uint8_t *bytes) {
    polynomial f;
    uint8_t coded[CODED], different = 0;
    mlkem_decode_12(bytes, f);
    mlkem_encode_12(f, coded);
    for (uint32_t at = 0; at < CODED; at++)
        different |= coded[at] ^ bytes[at];
    return different == 0;
}

static bool is_taken(const struct mlkem_kind *kind, const uint8_t *encapsulation_key) {
    bool taken = true;
    for (uint32_t at = 0; at < kind->rank; at++)
        taken &= is_reduced(encapsulation_key + CODED * at);
    return taken;
}

bool mlkem_encapsulate(
    const struct mlkem_kind *kind, const uint8_t *encapsulation_key, const uint8_t message[32], uint8_t *ciphertext, uint8_t shared[32]
) {
    uint8_t digest[32], both[64];
    if (!is_taken(kind, encapsulation_key))
        return false;
    hashed_key(kind, encapsulation_key, digest);
    hashed_in_two(message, digest, 32, both);
    copied(shared, both, 32);
    encrypt(kind, encapsulation_key, message, both + 32, ciphertext);
    wiped(both, sizeof both);
    return true;
}

bool mlkem_is_whole(const struct mlkem_kind *kind, const uint8_t *decapsulation_key) {
    const uint8_t *encapsulation_key = decapsulation_key + vector_bytes(kind);
    uint8_t digest[32];
    hashed_key(kind, encapsulation_key, digest);
    return equal_32(digest, encapsulation_key + public_bytes(kind));
}

/* Whether two ciphertexts are equal, which is secret: the routine compares each 32 bytes. */
static bool are_equal(const uint8_t *one, const uint8_t *other, uint32_t count) {
    uint32_t equal = 1;
    for (uint32_t at = 0; at < count; at += 32)
        equal &= equal_32(one + at, other + at);
    return equal;
}

void mlkem_decapsulate(
    const struct mlkem_kind *kind, const uint8_t *decapsulation_key, const uint8_t *ciphertext, uint8_t shared[32]
) {
    const uint8_t *encapsulation_key = decapsulation_key + vector_bytes(kind), *digest = encapsulation_key + public_bytes(kind);
    uint8_t message[32], both[64], rejected[32], again[MOST_CIPHERTEXT];
    decrypt(kind, decapsulation_key, ciphertext, message);
    hashed_in_two(message, digest, 32, both);
    squeezed(digest + 32, ciphertext, ciphertext_bytes(kind), rejected, 32);
    encrypt(kind, encapsulation_key, message, both + 32, again);
    select_32(are_equal(again, ciphertext, ciphertext_bytes(kind)), both, rejected, shared);
    wiped(message, sizeof message);
    wiped(both, sizeof both);
    wiped(rejected, sizeof rejected);
    wiped(again, sizeof again);
}
