/* What other libraries' sources name of a C library; memory.c has what the calls need. Each of its headers is this one. */
#ifndef PEERS_C_LIBRARY_H
#define PEERS_C_LIBRARY_H
#include <stddef.h>
#include <stdint.h>
#include <stdbool.h>
#include <stdarg.h>

void *memcpy(void *to, const void *from, size_t count);
void *memmove(void *to, const void *from, size_t count);
void *memset(void *to, int value, size_t count);
int memcmp(const void *one, const void *other, size_t count);
size_t strlen(const char *text);
char *strchr(const char *text, int wanted);
int strcmp(const char *one, const char *other);
void abort(void);
void *malloc(size_t count);
void *calloc(size_t count, size_t size);
void free(void *place);

typedef struct FILE FILE;
typedef long ssize_t, off_t, time_t;
typedef int sig_atomic_t;
#define assert(condition) ((void)0)
#define errno (*(int *)0)
#define ERANGE 34
#define EINVAL 22
#define ENOMEM 12
#define ENOSYS 38
#define SIGABRT 6
int raise(int signal);
#endif
