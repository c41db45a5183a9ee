#include "say.h"

#include "board.h"

static int wrong;

void say(const char *text) {
    uint32_t count = 0;
    while (text[count] != 0)
        count++;
    board_write(text, count);
}

void say_bytes(const char *title, const uint8_t *bytes, uint32_t count) {
    say(title);
    for (uint32_t at = 0; at < count; at++) {
        char digits[3] = {"0123456789abcdef"[bytes[at] >> 4], "0123456789abcdef"[bytes[at] & 15], 0};
        say(at > 0 && at % 32 == 0 ? "\n        " : "");
        say(digits);
    }
    say("\n");
}

bool same(const void *one, const void *other, uint32_t count) {
    const uint8_t *a = one, *b = other;
    while (count > 0 && *a == *b)
        a++, b++, count--;
    return count == 0;
}

void judge(bool right, const char *what) {
    say(right ? "right  " : "WRONG  ");
    say(what);
    say("\n");
    wrong |= !right;
}

int status(void) {
    return wrong;
}
