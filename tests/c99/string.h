#ifndef STRING_H
#define STRING_H

#include <stddef.h>

int memcmp(const void *one, const void *other, size_t length);
void *memcpy(void *restrict to, const void *restrict from, size_t length);
void *memset(void *at, int byte, size_t length);
size_t strlen(const char *text);

#endif
