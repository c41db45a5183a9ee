/* Prints of each vector whether it is right, or what is wrong with it, and its label. */
#include "board.h"
#include "caller.h"

static void say(const char *text) {
    uint32_t count = 0;
    while (text[count] != 0)
        count++;
    board_write(text, count);
}

int main(void) {
    for (uint32_t at = 0; at < vector_count; at++) {
        const char *wrong = wrong_with(&vectors[at]);
        say(wrong ? wrong : "right");
        say(" ");
        say(vectors[at].label);
        say("\n");
    }
    return 0;
}
