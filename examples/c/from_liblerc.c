/* Heights with a mask of bytes are encoded, looked at and decoded, as docs/FROM_LIBLERC.md has it of Esri's library. */
#include "futskheri.h"
#include <stdio.h>
#include <stdlib.h>
#include <string.h>

/* Masks of a byte for each pixel, as liblerc has them, and of a bit for each. */
static void bits_of(const uint8_t *bytes, size_t pixels, uint8_t *bits) {
    memset(bits, 0, (pixels + 7) / 8);
    for (size_t at = 0; at < pixels; at++)
        if (bytes[at])
            bits[at / 8] |= 0x80 >> at % 8;
}

static void bytes_of(const uint8_t *bits, size_t pixels, uint8_t *bytes) {
    for (size_t at = 0; at < pixels; at++)
        bytes[at] = bits[at / 8] >> (7 - at % 8) & 1;
}

int main(void) {
    int16_t heights[12] = {410, 411, 412, 413, 420, 421, 0, 423, 430, 431, 432, 440}, back[12];
    uint8_t valid[12] = {1, 1, 1, 1, 1, 1, 0, 1, 1, 1, 1, 1}, marks[12], bits[2];
    uint64_t size = futskheri_greatest_size(FUTSKHERI_I16, 3, 4, 1);
    struct futskheri_head head;
    struct futskheri_fault fault;
    uint8_t *blob = malloc(size);
    bits_of(valid, 12, bits);
    if (!blob || futskheri_encode(FUTSKHERI_I16, 3, 4, 1, 4, 0, heights, sizeof heights, bits, sizeof bits, blob, size, &size)
                     != FUTSKHERI_OK)
        return 1;
    if (futskheri_header(blob, size, &head, &fault) != FUTSKHERI_OK)
        return 1;
    printf("version %u, %u rows, %u columns, %u valid, %d to %d\n", head.version, head.rows, head.cols, head.valid,
           (int)head.least, (int)head.greatest);
    if (futskheri_decode_over(blob, size, back, sizeof back, bits, sizeof bits, &fault) != FUTSKHERI_OK)
        return 1;
    bytes_of(bits, 12, marks);
    for (int at = 0; at < 12; at++)
        printf("%d%c", marks[at] ? back[at] : -1, at % 4 == 3 ? '\n' : ' ');
    free(blob);
    return 0;
}
