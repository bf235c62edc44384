#ifndef STDIO_H
#define STDIO_H
#include <stddef.h>
#ifdef __cplusplus
extern "C" {
#endif
typedef struct _IO_FILE FILE;
extern FILE *stdout;
FILE *fopen(const char *__restrict, const char *__restrict);
int fclose(FILE *);
size_t fread(void *__restrict, size_t, size_t, FILE *__restrict);
int printf(const char *__restrict, ...);
size_t fwrite(const void *__restrict, size_t, size_t, FILE *__restrict);
#ifdef __cplusplus
}
#endif
#endif
