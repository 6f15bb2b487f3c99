/* In place of the C library's own header, which the kit does not have: what the C programs here use of it, on x86-64. */
#ifndef STDINT_H
#define STDINT_H
typedef unsigned char uint8_t;
typedef unsigned short uint16_t;
typedef int int32_t;
typedef unsigned int uint32_t;
typedef unsigned long uint64_t;
#endif
