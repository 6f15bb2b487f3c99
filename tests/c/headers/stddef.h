/* In place of the C library's own header, which the kit does not have: what the C programs here use of it, on x86-64. */
#ifndef STDDEF_H
#define STDDEF_H
typedef __SIZE_TYPE__ size_t;
#define NULL ((void *)0)
#endif
