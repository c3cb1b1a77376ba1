// The functions of <string.h> that a chip without the C library has. They are in string.c, and sdk/build.sh links those that
// are called. With --libc the library's own <string.h> is used.
#ifndef CHIP_STRING_H
#define CHIP_STRING_H

#include <stddef.h>

#ifdef __cplusplus
extern "C" {
#endif

void *memcpy(void *__restrict to, const void *__restrict from, size_t count);
void *memmove(void *to, const void *from, size_t count);
void *memset(void *to, int byte, size_t count);
int memcmp(const void *left, const void *right, size_t count);
size_t strlen(const char *text);
int strcmp(const char *left, const char *right);

#ifdef __cplusplus
}
#endif

#endif
