/* The check code, eight bytes at a time: table k has the remainder of a byte that k bytes follow. */
#include "baseline.h"

static uint16_t table[8][256];

__attribute__((constructor)) static void fill(void) {
    for (int b = 0; b < 256; b++) {
        uint16_t r = (uint16_t)(b << 8);
        for (int i = 0; i < 8; i++)
            r = (uint16_t)(r & 0x8000 ? r << 1 ^ 0x1021 : r << 1);
        table[0][b] = r;
    }
    for (int k = 1; k < 8; k++)
        for (int b = 0; b < 256; b++)
            table[k][b] = (uint16_t)(table[k - 1][b] << 8 ^ table[0][table[k - 1][b] >> 8]);
}

uint16_t base_check_code(const uint8_t *s, size_t n) {
    uint16_t r = 0xFFFF;
    for (; n >= 8; s += 8, n -= 8)
        r = table[7][s[0] ^ r >> 8] ^ table[6][s[1] ^ (r & 255)] ^ table[5][s[2]] ^ table[4][s[3]] ^ table[3][s[4]] ^ table[2][s[5]] ^
            table[1][s[6]] ^ table[0][s[7]];
    for (; n; s++, n--)
        r = (uint16_t)(r << 8) ^ table[0][*s ^ r >> 8];
    return (uint16_t)~r;
}
