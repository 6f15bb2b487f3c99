/* In place of the C library's own header, which the kit does not have: what the C programs here use of it, on x86-64. */
#ifndef STDBOOL_H
#define STDBOOL_H
#ifndef __cplusplus
#define bool _Bool
#define true 1
#define false 0
#endif
#endif
