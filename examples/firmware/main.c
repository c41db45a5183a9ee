/* Seals a message with ChaCha20, hashes one with SHA-256, and looks up a secret place of a table. The three routines are
   compiled by factc, so neither the instructions that they execute nor the addresses that they access depend on their
   secrets; everything else is C. */
#include "board.h"
#include "chacha20_block.h"
#include "sha256_block.h"
#include "table_lookup.h"

/* The stack that the deepest call takes: checked when this is compiled. */
#define STACK_BYTES 1024
typedef char chacha20_block_fits[chacha20_block_STACK_BYTES <= STACK_BYTES ? 1 : -1];
typedef char sha256_block_fits[sha256_block_STACK_BYTES <= STACK_BYTES ? 1 : -1];
typedef char table_lookup_fits[table_lookup_STACK_BYTES <= STACK_BYTES ? 1 : -1];

/* In a device these come from where it keeps its secrets. */
static uint32_t key[8] = {0x03020100, 0x07060504, 0x0b0a0908, 0x0f0e0d0c, 0x13121110, 0x17161514, 0x1b1a1918, 0x1f1e1d1c};
static uint32_t place = 3;

/* What is not `mut` may lie in read-only memory. */
static const uint32_t nonce[3] = {0x09000000, 0x4a000000, 0};
static const uint32_t steps[8] = {1, 1, 2, 6, 24, 120, 720, 5040};
static const char message[64] = "The key of a device is to leave it neither by radio nor by time.";

static void say(const char *text) {
    uint32_t count = 0;
    while (text[count] != 0)
        count++;
    board_write(text, count);
}

static void say_words(const char *title, const uint32_t *words, int count) {
    say(title);
    for (int at = 0; at < count; at++) {
        char digits[9];
        for (int digit = 0; digit < 8; digit++)
            digits[digit] = "0123456789abcdef"[words[at] >> (28 - 4 * digit) & 15];
        digits[8] = 0;
        say(at > 0 && at % 8 == 0 ? "\n        " : " ");
        say(digits);
    }
    say("\n");
}

/* A word of bytes, the lowest first, as ChaCha20 takes them; and the highest first, as SHA-256 does. */
static uint32_t low_first(const char *bytes) {
    const unsigned char *b = (const unsigned char *)bytes;
    return b[0] | (uint32_t)b[1] << 8 | (uint32_t)b[2] << 16 | (uint32_t)b[3] << 24;
}

static uint32_t high_first(const char *bytes) {
    const unsigned char *b = (const unsigned char *)bytes;
    return (uint32_t)b[0] << 24 | (uint32_t)b[1] << 16 | (uint32_t)b[2] << 8 | b[3];
}

static void seal(uint32_t *sealed) {
    uint32_t stream[16];
    chacha20_block(key, 1, nonce, stream);
    for (int at = 0; at < 16; at++)
        sealed[at] = low_first(message + 4 * at) ^ stream[at];
}

/* The digest of 48 bytes of the message, in one block with its padding. */
static void digest(uint32_t *hash) {
    uint32_t block[16] = {0};
    for (int at = 0; at < 12; at++)
        block[at] = high_first(message + 4 * at);
    block[12] = 0x80000000;
    block[15] = 8 * 48;
    sha256_block(block, hash);
}

int main(void) {
    uint32_t sealed[16], hash[8], found;
    seal(sealed);
    say_words("sealed ", sealed, 16);
    digest(hash);
    say_words("digest ", hash, 8);
    found = table_lookup(place, steps);
    say_words("entry  ", &found, 1);
    return 0;
}
