/* In place of the C library's own header, which the kit does not have: what the C programs here use of it, on x86-64. */
#ifndef INTTYPES_H
#define INTTYPES_H
#include <stdint.h>
#define PRIu32 "u"
#define PRIx32 "x"
#define PRIu64 "lu"
#endif
