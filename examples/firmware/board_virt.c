/* QEMU's board `virt`, without an operating system: it prints by the serial port, and ends by the test device. */
#include "board.h"

/* What virt_start.S fills the stack with, from where virt.ld puts its end. */
#define PAINT 0xa5a5a5a5u
#define STACK_EXHAUSTED 3

extern const volatile uint32_t stack_bottom[], stack_top[];

/* A 16550 that sends a byte once the last one has gone. */
#define SERIAL ((volatile uint8_t *)0x10000000)
#define LINE_STATUS 5
#define EMPTY 0x20

/* 0x5555 ends QEMU with status 0, 0x3333 with the status in the upper half. */
#define TEST ((volatile uint32_t *)0x100000)

void board_write(const char *bytes, uint32_t count) {
    for (uint32_t at = 0; at < count; at++) {
        while (!(SERIAL[LINE_STATUS] & EMPTY)) {
        }
        SERIAL[0] = (uint8_t)bytes[at];
    }
}

#ifdef BOARD_SAYS_STACK
/* How many bytes of the stack no longer hold what they were filled with, up to the deepest. */
static void say_stack(void) {
    const volatile uint32_t *word = stack_bottom;
    char digits[] = "stack 00000\n";
    while (word < stack_top && *word == PAINT)
        word++;
    uint32_t count = (uint32_t)(stack_top - word) * 4;
    for (int place = 10; place > 5; place--, count /= 10)
        digits[place] = (char)('0' + count % 10);
    board_write(digits, sizeof digits - 1);
}
#endif

void board_end(int status) {
#ifdef BOARD_SAYS_STACK
    say_stack();
#endif
    if (stack_bottom[0] != PAINT)
        status = STACK_EXHAUSTED;
    for (;;)
        *TEST = status == 0 ? 0x5555 : (uint32_t)status << 16 | 0x3333;
}
