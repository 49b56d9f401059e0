/* A tile of 4 by 4 unsigned bytes is encoded, decoded, and decoded again with a byte changed. */
#include "futskheri.h"
#include <stdio.h>
#include <string.h>

int main(void) {
    uint8_t tile[16] = {1, 2, 3, 4, 2, 3, 4, 5, 3, 4, 5, 6, 4, 5, 6, 200}, back[16];
    uint8_t mask[2], blob[512], name[30];
    uint64_t size = 0;
    struct futskheri_head head;
    struct futskheri_fault fault = {0, 0, 0, 0};
    if (futskheri_greatest_size(FUTSKHERI_U8, 4, 4, 1) > sizeof blob
        || futskheri_encode(FUTSKHERI_U8, 4, 4, 1, 4, 0, tile, sizeof tile, mask, 0, blob, sizeof blob, &size)
               != FUTSKHERI_OK
        || futskheri_header(blob, size, &head, &fault) != FUTSKHERI_OK)
        return 1;
    printf("%u rows, %u columns, values from %d to %d\n", head.rows, head.cols, (int)head.least,
           (int)head.greatest);
    if (futskheri_decode_over(blob, size, back, sizeof back, mask, sizeof mask, &fault) != FUTSKHERI_OK)
        return 1;
    printf("the same values: %s, mask %02x %02x\n", memcmp(tile, back, sizeof tile) ? "no" : "yes", mask[0],
           mask[1]);
    blob[size - 1] ^= 1;
    if (futskheri_decode(blob, size, back, sizeof back, mask, sizeof mask, &fault) != FUTSKHERI_REFUSED)
        return 1;
    size_t length = futskheri_reason_name(fault.reason, name, sizeof name);
    printf("refused: %.*s at %u\n", (int)length, (const char *)name, (unsigned)fault.place);
    return 0;
}
