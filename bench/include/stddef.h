/* What the benchmark uses of the C library, for the kit's clang, which has no headers of its own. */
#ifndef STDDEF_H
#define STDDEF_H
typedef __SIZE_TYPE__ size_t;
#define NULL ((void *)0)
#endif
