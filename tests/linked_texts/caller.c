/* A caller of the functions, in C and in C++ as well: it prints what each gives. */
#include "add_one.h"
#include "chacha20_block.h"
#include "mixed.h"
#include "pick.h"
#include "sha256_block.h"
#include "swap2.h"
#include "system.h"
#include "table_lookup.h"

static const uint32_t key[8] = {0x03020100, 0x07060504, 0x0b0a0908, 0x0f0e0d0c, 0x13121110, 0x17161514, 0x1b1a1918, 0x1f1e1d1c};
static const uint32_t nonce[3] = {0x09000000, 0x4a000000, 0};
static const uint32_t message[16] = {0x61626380, 0, 0, 0, 0, 0, 0, 0, 0, 0, 0, 0, 0, 0, 0, 0x18};
static const uint32_t table[8] = {10, 20, 30, 40, 50, 60, 70, 80};

static void say(const char *text) {
    word count = 0;
    while (text[count] != 0)
        count++;
    asked(WRITE, 1, (word)(uintptr_t)text, count, 0);
}

static void say_number(uint32_t number) {
    char digits[10];
    digits[0] = ' ';
    digits[9] = 0;
    for (int place = 8; place > 0; place--) {
        digits[place] = "0123456789abcdef"[number & 15];
        number >>= 4;
    }
    say(digits);
}

static void say_words(const char *name, const uint32_t *words, int count) {
    say(name);
    for (int place = 0; place < count; place++)
        say_number(words[place]);
    say("\n");
}

static void say_word(const char *name, uint32_t number) {
    say_words(name, &number, 1);
}

/* The arrays stand so that each begins as far from a word's address as its elements allow. */
static struct {
    uint8_t before;
    bool flags[5], out[3];
    uint16_t hs[5];
    uint8_t bytes[7], small[3];
} arrays = {0, {true, false, true, true, false}, {false, false, true}, {1, 2, 3, 4, 65535}, {7, 6, 5, 4, 3, 2, 1}, {9, 8, 7}};

static void call_mixed(void) {
    static uint32_t words[2] = {100, 200};
    static const uint32_t more[3] = {3, 5, 7};
    uint16_t sum = mixed(true, 200, 40000, 0x89abcdef, arrays.flags, arrays.out, arrays.hs, arrays.bytes, false, 17, arrays.small, 30000, words, more);
    say_word("mixed", sum);
    uint32_t given[13];
    for (int place = 0; place < 3; place++) {
        given[place] = arrays.out[place];
        given[8 + place] = arrays.small[place];
    }
    for (int place = 0; place < 5; place++)
        given[3 + place] = arrays.hs[place];
    given[11] = words[0];
    given[12] = words[1];
    say_words("arrays", given, 13);
}

static void call_swap2(void) {
    static struct {
        uint16_t before, pair[2];
    } there = {0, {500, 7}};
    say_word("swap2", swap2(true, there.pair));
    uint32_t given[2] = {there.pair[0], there.pair[1]};
    say_words("pair", given, 2);
}

#ifdef __cplusplus
extern "C"
#endif
void _start(void) {
    static uint32_t stream[16], digest[8];
    say_word("add_one", add_one(41));
    say_word("stack", add_one_STACK_BYTES);
    say_word("pick", pick(true, 1, 2));
    say_word("pick", pick(false, 1, 2));
    call_swap2();
    call_mixed();
    say_word("table_lookup", table_lookup(3, table));
    chacha20_block(key, 1, nonce, stream);
    say_words("chacha20_block", stream, 16);
    sha256_block(message, digest);
    say_words("sha256_block", digest, 8);
    finish(0);
}
