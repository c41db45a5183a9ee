/* What the programs around the library print, and how they judge. */
#ifndef SAY_H
#define SAY_H

#include <stdbool.h>
#include <stdint.h>

void say(const char *text);

/* Digits, 32 bytes a line. */
void say_bytes(const char *title, const uint8_t *bytes, uint32_t count);

/* Whether so many bytes are the same; for what is public, since it shows where they differ. */
bool same(const void *one, const void *other, uint32_t count);

/* Says whether something is as it should be, and counts it for `status`. */
void judge(bool right, const char *what);

/* 0 where all that was judged is right, else 1. */
int status(void);

#endif
