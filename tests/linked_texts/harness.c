/* Makes calls of a function under an emulator of Linux. It reads registers, the bytes of ARENA, and those of ROM, which then
   cannot be written; calls with all of them so, as often as the word in the place of x0 says; and writes what registers and
   bytes are after the last call, and in the place of x0 how many signals came. Where there are several calls, all begin with the
   same registers and bytes and have to end with the same, and a timer's signals are taken on the stack of the call. */
#include "system.h"

#define PAGE 4096

#define ARENA_WORDS (ARENA_BYTES / 4)

word arena[ARENA_WORDS] __attribute__((section(".arena")));
unsigned char rom[(ROM_BYTES + PAGE - 1) / PAGE * PAGE] __attribute__((section(".rom"), aligned(PAGE)));
word registers[32], own[32];

static word arena_before[ARENA_WORDS], arena_first[ARENA_WORDS];
static word registers_before[32], registers_first[32];
static volatile word ticks;

void enter(void);

static void copy(volatile word *to, const volatile word *from, word count) {
    for (word i = 0; i < count; i++)
        to[i] = from[i];
}

static void moved(word number, word file, void *place, word count) {
    unsigned char *at = place;
    while (count > 0) {
        word some = asked(number, file, (word)at, count, 0);
        if (some == 0 || some > count)
            finish(2);
        at += some;
        count -= some;
    }
}

static void tick(int signal) {
    (void)signal;
    ticks++;
}

static void start_timer(void) {
    word action[4] = {(word)tick, 0, 0, 0};
    word interval[4] = {0, 100, 0, 100};
    if (asked(ON_SIGNAL, 14, (word)action, 0, 8) || asked(SET_TIMER, 0, (word)interval, 0, 0))
        finish(4);
}

/* What is below the caller's stack pointer is not compared: signals are taken there too. */
static void compare(void) {
    for (word i = (registers_before[2] - (word)arena) / 4; i < ARENA_WORDS; i++)
        if (arena[i] != arena_first[i])
            finish(3);
    for (word i = 2; i < 32; i++)
        if (registers[i] != registers_first[i])
            finish(3);
}

void _start(void) {
    moved(READ, 0, registers, sizeof registers);
    moved(READ, 0, arena, ARENA_BYTES);
    moved(READ, 0, rom, ROM_BYTES);
    asked(PROTECT, (word)rom, sizeof rom, 1, 0);
    word calls = registers[0];
    copy(registers_before, registers, 32);
    copy(arena_before, arena, ARENA_WORDS);
    word low = (registers[2] - ROOM - (word)arena) / 4;
    if (calls > 1)
        start_timer();
    for (word call = 0; call < calls; call++) {
        copy(registers, registers_before, 32);
        copy(arena + low, arena_before + low, ARENA_WORDS - low);
        enter();
        if (call == 0) {
            copy(registers_first, registers, 32);
            copy(arena_first, arena, ARENA_WORDS);
        }
        compare();
    }
    word none[4] = {0, 0, 0, 0};
    asked(SET_TIMER, 0, (word)none, 0, 0);
    registers[0] = ticks;
    moved(WRITE, 1, registers, sizeof registers);
    moved(WRITE, 1, arena, ARENA_BYTES);
    moved(WRITE, 1, rom, ROM_BYTES);
    finish(0);
}
