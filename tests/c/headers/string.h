/* In place of the C library's own header, which the kit does not have: what the C programs here use of it, on x86-64. */
#ifndef STRING_H
#define STRING_H
#include <stddef.h>
void *memset(void *memory, int byte, size_t length);
int memcmp(const void *one, const void *other, size_t size);
void *memcpy(void *to, const void *from, size_t size);
#endif
