#ifndef STRING_H
#define STRING_H
#include <stddef.h>
void *memcpy(void *restrict, const void *restrict, size_t);
void *memset(void *, int, size_t);
size_t strlen(const char *);
int memcmp(const void *, const void *, size_t);
int strcmp(const char *, const char *);
#endif
