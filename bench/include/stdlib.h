#ifndef STDLIB_H
#define STDLIB_H
#include <stddef.h>
long atol(const char *);
_Noreturn void abort(void);
#endif
