/* The calls of Linux on RV32 that the programs here make. */
#ifndef SYSTEM_H
#define SYSTEM_H

typedef unsigned int word;

enum { READ = 63, WRITE = 64, EXIT = 93, SET_TIMER = 103, ON_SIGNAL = 134, PROTECT = 226 };

static word asked(word number, word a, word b, word c, word d) {
    register word a7 __asm__("a7") = number;
    register word a0 __asm__("a0") = a;
    register word a1 __asm__("a1") = b;
    register word a2 __asm__("a2") = c;
    register word a3 __asm__("a3") = d;
    __asm__ volatile("ecall" : "+r"(a0) : "r"(a7), "r"(a1), "r"(a2), "r"(a3) : "memory");
    return a0;
}

static void finish(word status) {
    for (;;)
        asked(EXIT, status, 0, 0, 0);
}

#endif
