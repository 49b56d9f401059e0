/* Cases of the calls for C: rasters above the sizes of all other tests, which are to be encoded and decoded to the
 * same values, and what encode_bands and decode refuse. Its last line is 'N passed, M failed'. */
#include "futskheri.h"
#include <stdio.h>
#include <stdlib.h>
#include <string.h>

static int passed, failed;

static void count(const char *name, int holds) {
    printf("%s: %s\n", holds ? "ok" : "FAILED", name);
    if (holds)
        passed++;
    else
        failed++;
}

/* Memory that the cases need themselves. */
static void *room(size_t size) {
    void *found = malloc(size);
    if (!found) {
        fprintf(stderr, "no memory for the case itself\n");
        exit(1);
    }
    return found;
}

/* Bytes at random, the same in each run. */
static void fill(uint8_t *bytes, size_t size) {
    uint64_t x = 7;
    for (size_t i = 0; i < size; i++) {
        x = x * 16807 % 2147483647;
        bytes[i] = (uint8_t)(x >> 23);
    }
}

/* A raster, or bands of one shape, with one mask for each band or one for all. */
struct shape {
    uint32_t kind, width, rows, cols, depth, bands;
};

static size_t pixels_of(struct shape s) { return (size_t)s.rows * s.cols; }
static size_t values_of(struct shape s) { return pixels_of(s) * s.depth * s.width; }
static size_t mask_of(struct shape s) { return (pixels_of(s) + 7) / 8; }

/* A mask in which each pixel whose number `every` divides is not valid; the bits behind the last pixel are 0. */
static void mark(struct shape s, uint8_t *mask, size_t every) {
    memset(mask, 0, mask_of(s));
    for (size_t k = 0; k < pixels_of(s); k++)
        if (k % every != 0)
            mask[k / 8] |= (uint8_t)(128 >> k % 8);
}

/* Sets the values of the pixels that are not valid to 0, as a decoded raster has them. */
static void clear(struct shape s, const uint8_t *mask, uint8_t *values) {
    size_t size = (size_t)s.depth * s.width;
    for (size_t k = 0; k < pixels_of(s); k++)
        if (!(mask[k / 8] & 128 >> k % 8))
            memset(values + k * size, 0, size);
}

/* One raster through futskheri_encode, and back by both calls that decode; `every` 0 is no mask. */
static void raster_comes_back(const char *name, struct shape s, size_t every) {
    uint64_t most = futskheri_greatest_size(s.kind, s.rows, s.cols, s.depth), size = 0;
    uint8_t *values = room(values_of(s)), *back = room(values_of(s)), *blob = room(most);
    uint8_t *mask = room(mask_of(s)), *found = room(mask_of(s));
    struct futskheri_fault fault;
    fill(values, values_of(s));
    mark(s, mask, every ? every : pixels_of(s) + 1);
    if (!every)
        mask[0] |= 128;
    int holds = futskheri_encode(s.kind, s.rows, s.cols, s.depth, 4, 0, values, values_of(s), mask,
                                 every ? mask_of(s) : 0, blob, most, &size)
        == FUTSKHERI_OK;
    clear(s, mask, values);
    holds = holds
        && futskheri_decode(blob, size, back, values_of(s), found, mask_of(s), &fault) == FUTSKHERI_OK
        && memcmp(values, back, values_of(s)) == 0 && memcmp(mask, found, mask_of(s)) == 0;
    memset(back, 255, values_of(s));
    holds = holds
        && futskheri_decode_over(blob, size, back, values_of(s), found, mask_of(s), &fault) == FUTSKHERI_OK
        && memcmp(values, back, values_of(s)) == 0 && memcmp(mask, found, mask_of(s)) == 0;
    count(name, holds);
    free(values), free(back), free(blob), free(mask), free(found);
}

/* Bands through futskheri_encode_bands, and back; `masks` is how many masks are passed: 0, 1 or one for each. */
static void bands_come_back(const char *name, struct shape s, uint32_t masks) {
    uint64_t most = s.bands * futskheri_greatest_size(s.kind, s.rows, s.cols, s.depth), size = 0;
    size_t values_size = s.bands * values_of(s), masks_size = s.bands * mask_of(s);
    uint8_t *values = room(values_size), *back = room(values_size), *blobs = room(most);
    uint8_t *given = room(masks_size), *found = room(masks_size);
    uint32_t bands = 0, headed = 0;
    struct futskheri_fault fault;
    fill(values, values_size);
    for (uint32_t b = 0; b < s.bands; b++)
        mark(s, given + b * mask_of(s), masks == 0 ? pixels_of(s) + 1 : masks == 1 ? 5 : 5 + b / 2);
    for (uint32_t b = 0; masks == 0 && b < s.bands; b++)
        given[b * mask_of(s)] |= 128;
    int holds = futskheri_encode_bands(s.kind, s.rows, s.cols, s.depth, s.bands, 4, 0, values, values_size, given,
                                       masks * mask_of(s), blobs, most, &size)
        == FUTSKHERI_OK;
    for (uint32_t b = 0; b < s.bands; b++)
        clear(s, given + b * mask_of(s), values + b * values_of(s));
    holds = holds && futskheri_count_bands(blobs, size, &bands, &fault) == FUTSKHERI_OK && bands == s.bands
        && futskheri_bands_of_headers(blobs, size, &headed, &fault) == FUTSKHERI_OK && headed == s.bands
        && futskheri_decode_bands(blobs, size, bands, back, values_size, found, masks_size, &fault) == FUTSKHERI_OK
        && memcmp(values, back, values_size) == 0 && memcmp(given, found, masks_size) == 0;
    memset(back, 255, values_size);
    memset(found, 255, masks_size);
    holds = holds
        && futskheri_decode_bands_over(blobs, size, bands, back, values_size, found, masks_size, &fault) == FUTSKHERI_OK
        && memcmp(values, back, values_size) == 0 && memcmp(given, found, masks_size) == 0;
    count(name, holds);
    free(values), free(back), free(blobs), free(given), free(found);
}

/* What encode_bands answers of two bands of one row of two pixels, and whether it leaves out and size as they were
 * where it has to. */
static void bands_answer(const char *name, uint32_t wanted, struct shape s, uint32_t version, size_t values_size,
                         size_t masks_size, size_t out_size) {
    uint8_t values[64] = {1, 2, 3, 4, 5, 6, 7, 8}, masks[32], out[2048], as_before[2048];
    uint64_t size = 12345;
    memset(masks, 128, sizeof masks);
    memset(out, 170, sizeof out);
    memcpy(as_before, out, sizeof out);
    uint32_t got = futskheri_encode_bands(s.kind, s.rows, s.cols, s.depth, s.bands, version, 0, values, values_size,
                                          masks, masks_size, out, out_size, &size);
    int left = memcmp(out, as_before, sizeof out) == 0;
    int holds = got == wanted && (wanted == FUTSKHERI_OK ? !left : left)
        && (wanted == FUTSKHERI_OK || wanted == FUTSKHERI_NO_ROOM ? size != 12345 : size == 12345);
    count(name, holds);
}

static void refusals_of_bands(void) {
    struct shape s = {FUTSKHERI_U8, 1, 1, 2, 1, 2}, deep = {FUTSKHERI_U8, 1, 1, 2, 2, 2}, t = s;
    bands_answer("two bands, one mask", FUTSKHERI_OK, s, 3, 4, 1, 2048);
    bands_answer("two bands, two masks", FUTSKHERI_OK, s, 3, 4, 2, 2048);
    bands_answer("two depths, version 4", FUTSKHERI_OK, deep, 4, 8, 0, 2048);
    bands_answer("two depths, version 3", FUTSKHERI_DEPTH_NEEDS_V4, deep, 3, 8, 0, 2048);
    bands_answer("a value too few", FUTSKHERI_BAD_SIZES, s, 4, 3, 0, 2048);
    bands_answer("a value too many", FUTSKHERI_BAD_SIZES, s, 4, 5, 0, 2048);
    bands_answer("a mask too many", FUTSKHERI_BAD_SIZES, s, 4, 4, 3, 2048);
    bands_answer("sizes before depths", FUTSKHERI_BAD_SIZES, deep, 3, 7, 0, 2048);
    bands_answer("no room", FUTSKHERI_NO_ROOM, s, 4, 4, 0, 100);
    t.bands = 0;
    bands_answer("no bands", FUTSKHERI_BAD_SHAPE, t, 4, 0, 0, 2048);
    t.bands = 17;
    bands_answer("17 bands", FUTSKHERI_TOO_LARGE, t, 4, 34, 0, 2048);
    t.bands = 2;
    t.rows = 8388608;
    bands_answer("2^25 values in all", FUTSKHERI_TOO_LARGE, t, 4, 4, 0, 2048);
    t.rows = 0;
    bands_answer("no rows", FUTSKHERI_BAD_SHAPE, t, 4, 4, 0, 2048);
    bands_answer("the version before the shape", FUTSKHERI_BAD_VERSION, t, 5, 4, 0, 2048);
    t.kind = 6;
    bands_answer("the type before the version", FUTSKHERI_BAD_KIND, t, 5, 4, 0, 2048);
}

/* Arrays of other lengths than a blob's raster asks for stay as they were. */
static void sizes_of_decode(void) {
    uint8_t values[4] = {1, 2, 3, 4}, blob[512], back[8], mask[4] = {0};
    uint64_t size = 0;
    struct futskheri_fault fault = {9, 9, 9, 9};
    int holds = futskheri_encode(FUTSKHERI_U8, 2, 2, 1, 3, 0, values, 4, mask, 0, blob, sizeof blob, &size)
        == FUTSKHERI_OK;
    memset(back, 170, sizeof back);
    memset(mask, 170, sizeof mask);
    for (size_t n = 0; n <= sizeof back; n++)
        for (size_t m = 0; m <= sizeof mask; m++) {
            /* A raster without invalid pixels is decoded without a mask, too, but not over the caller's arrays. */
            if (n != 4 || m > 1)
                holds = holds && futskheri_decode(blob, size, back, n, mask, m, &fault) == FUTSKHERI_BAD_SIZES;
            if (n != 4 || m != 1)
                holds = holds && futskheri_decode_over(blob, size, back, n, mask, m, &fault) == FUTSKHERI_BAD_SIZES;
        }
    for (size_t i = 0; i < sizeof back; i++)
        holds = holds && back[i] == 170 && mask[i % sizeof mask] == 170;
    count("arrays of other lengths", holds && fault.place == 9 && fault.reason == 9);
}

/* Whether decode_bands_over answers this and tells no fault. */
static int over_is(uint32_t wanted, const uint8_t *tile, uint64_t size, uint32_t bands, uint8_t *values, size_t n,
                   uint8_t *masks, size_t m) {
    struct futskheri_fault fault = {9, 9, 9, 9};
    return futskheri_decode_bands_over(tile, size, bands, values, n, masks, m, &fault) == wanted && fault.place == 9
        && fault.reason == 9;
}

/* Two bands of one row of two pixels, the second with the mask of the first, into arrays: of other lengths, for other
 * numbers of bands, cut at each length, and with a wrong value. */
static void bands_over(void) {
    uint8_t values[4] = {1, 0, 3, 0}, mask = 128, tile[512], back[64], masks[32];
    uint64_t size = 0;
    struct futskheri_head head;
    struct futskheri_fault fault;
    int holds = futskheri_encode_bands(FUTSKHERI_U8, 1, 2, 1, 2, 4, 0, values, 4, &mask, 1, tile, sizeof tile, &size)
            == FUTSKHERI_OK
        && futskheri_header(tile, size, &head, &fault) == FUTSKHERI_OK;
    memset(back, 170, sizeof back);
    memset(masks, 170, sizeof masks);
    for (size_t n = 0; n <= 8; n++)
        for (size_t m = 0; m <= 4; m++)
            if (n != 4 || m != 2)
                holds = holds && over_is(FUTSKHERI_BAD_SIZES, tile, size, 2, back, n, masks, m);
    holds = holds && over_is(FUTSKHERI_BAD_SIZES, tile, size, 0, back, 0, masks, 0)
        && over_is(FUTSKHERI_BAD_SIZES, tile, size, 17, back, 34, masks, 17)
        && over_is(FUTSKHERI_BAD_SIZES, tile, 70, 2, back, 5, masks, 2);
    for (size_t i = 0; i < sizeof back; i++)
        holds = holds && back[i] == 170 && masks[i % sizeof masks] == 170;
    count("bands over arrays of other lengths", holds);
    holds = over_is(FUTSKHERI_BAD_SIZES, tile, size, 1, back, 2, masks, 1)
        && over_is(FUTSKHERI_BAD_SIZES, tile, size, 3, back, 6, masks, 3);
    count("more and fewer bands over arrays", holds);
    holds = over_is(FUTSKHERI_OK, tile, size, 2, back, 4, masks, 2) && memcmp(values, back, 4) == 0 && masks[0] == 128
        && masks[1] == 128 && over_is(FUTSKHERI_OK, tile, head.size, 1, back, 2, masks, 1);
    count("bands over arrays, the mask of the band before", holds);
    for (uint64_t n = 0; holds && n < size; n++) {
        struct futskheri_fault one = {9, 9, 9, 9}, other = {9, 9, 9, 9};
        uint32_t got = futskheri_decode_bands_over(tile, n, 2, back, 4, masks, 2, &one);
        uint32_t wanted = futskheri_decode_bands(tile, n, 2, back, 4, masks, 2, &other);
        holds = got == wanted && one.place == other.place && one.reason == other.reason;
    }
    count("bands over arrays, cut", holds);
    tile[size - 1] ^= 1;
    holds = holds && futskheri_decode_bands_over(tile, size, 2, back, 4, masks, 2, &fault) == FUTSKHERI_REFUSED
        && fault.place == head.size + 10 && fault.reason == 15;
    count("bands over arrays, a wrong value", holds);
}

/* Null pointers with the size 0: no mask, and a buffer that is not there yet. */
static void null_pointers(void) {
    uint8_t values[4] = {1, 2, 3, 4}, one = 9, mask = 0xb0, blob[512], same[512], back[4];
    uint64_t wanted = 0, size = 0, again = 0;
    struct futskheri_fault fault = {9, 9, 9, 9};
    int holds = futskheri_encode(FUTSKHERI_U8, 2, 2, 1, 3, 0, values, 4, NULL, 0, NULL, 0, &wanted) == FUTSKHERI_NO_ROOM
        && wanted > 0 && wanted <= sizeof blob
        && futskheri_encode(FUTSKHERI_U8, 2, 2, 1, 3, 0, values, 4, NULL, 0, blob, wanted, &size) == FUTSKHERI_OK
        && futskheri_encode(FUTSKHERI_U8, 2, 2, 1, 3, 0, values, 4, &one, 0, same, wanted, &again) == FUTSKHERI_OK
        && size == wanted && again == wanted && memcmp(blob, same, wanted) == 0;
    count("a blob without a mask, and its size", holds);
    memset(back, 170, sizeof back);
    holds = holds && futskheri_decode(blob, size, back, 4, NULL, 0, &fault) == FUTSKHERI_OK
        && memcmp(values, back, 4) == 0;
    memset(back, 170, sizeof back);
    holds = holds && futskheri_decode(blob, size, back, 3, NULL, 0, &fault) == FUTSKHERI_BAD_SIZES
        && futskheri_encode(FUTSKHERI_U8, 2, 2, 1, 3, 0, values, 4, &mask, 1, blob, sizeof blob, &size) == FUTSKHERI_OK
        && futskheri_decode(blob, size, back, 4, NULL, 0, &fault) == FUTSKHERI_BAD_SIZES;
    for (size_t i = 0; i < sizeof back; i++)
        holds = holds && back[i] == 170;
    count("a mask that is not wanted", holds && fault.place == 9);
    holds = futskheri_encode_bands(FUTSKHERI_U8, 1, 2, 1, 2, 3, 0, values, 4, NULL, 0, NULL, 0, &wanted)
            == FUTSKHERI_NO_ROOM
        && wanted > 0 && wanted <= sizeof blob
        && futskheri_encode_bands(FUTSKHERI_U8, 1, 2, 1, 2, 3, 0, values, 4, NULL, 0, blob, wanted, &size)
            == FUTSKHERI_OK
        && size == wanted;
    memset(back, 170, sizeof back);
    holds = holds && futskheri_decode_bands(blob, size, 3, back, 4, NULL, 0, &fault) == FUTSKHERI_BAD_SIZES
        && futskheri_decode_bands(blob, size, 2, back, 3, NULL, 0, &fault) == FUTSKHERI_BAD_SIZES && back[0] == 170
        && futskheri_decode_bands(blob, size, 2, back, 4, NULL, 0, &fault) == FUTSKHERI_OK
        && memcmp(values, back, 4) == 0;
    count("bands without masks, and their size", holds);
    mask = 0x80;
    memset(back, 170, sizeof back);
    holds = futskheri_encode_bands(FUTSKHERI_U8, 1, 2, 1, 2, 3, 0, values, 4, &mask, 1, blob, sizeof blob, &size)
            == FUTSKHERI_OK
        && futskheri_decode_bands(blob, size, 2, back, 4, NULL, 0, &fault) == FUTSKHERI_BAD_SIZES && back[0] == 170;
    count("masks that are not wanted", holds);
}

/* Whether the headers of the bytes say this: so many bands, or, where that is 0, this fault; nothing else is told. */
static int headers_say(const uint8_t *tile, size_t size, uint32_t bands, uint64_t place, uint32_t reason) {
    uint32_t found = 12345;
    struct futskheri_fault fault = {9, 9, 9, 9};
    uint32_t got = futskheri_bands_of_headers(tile, size, &found, &fault);
    if (bands)
        return got == FUTSKHERI_OK && found == bands && fault.place == 9 && fault.reason == 9;
    return got == FUTSKHERI_REFUSED && found == 12345 && fault.place == place && fault.reason == reason;
}

/* A tile of two bands cut at each length; one whose values are not those of its checksum; and of 17 blobs. */
static void headers_of_tiles(void) {
    uint8_t values[4] = {1, 2, 3, 4}, tile[17 * 256];
    uint64_t size = 0;
    uint32_t bands;
    struct futskheri_head head;
    struct futskheri_fault fault;
    int holds = futskheri_encode_bands(FUTSKHERI_U8, 1, 2, 1, 2, 4, 0, values, 4, NULL, 0, tile, sizeof tile, &size)
            == FUTSKHERI_OK
        && futskheri_header(tile, size, &head, &fault) == FUTSKHERI_OK && head.size < size && head.size <= 256;
    for (uint64_t n = 0; holds && n <= size; n++)
        holds = headers_say(tile, n, n == head.size ? 1 : n == size ? 2 : 0, n, 1);
    count("headers of a tile that is cut", holds);
    tile[size - 1] ^= 1;
    holds = holds && headers_say(tile, size, 2, 0, 0)
        && futskheri_count_bands(tile, size, &bands, &fault) == FUTSKHERI_REFUSED;
    count("headers of a tile with a wrong value", holds);
    tile[head.size] ^= 1;
    count("a second key that is none", holds && headers_say(tile, size, 0, head.size, 2));
    for (size_t k = 1; holds && k < 17; k++)
        memcpy(tile + k * head.size, tile, head.size);
    count("16 headers and 17",
          holds && headers_say(tile, 16 * head.size, 16, 0, 0)
              && headers_say(tile, 17 * head.size, 0, 16 * head.size, 31));
}

int main(void) {
    raster_comes_back("300 depths", (struct shape){FUTSKHERI_U8, 1, 20, 20, 300, 1}, 0);
    raster_comes_back("300 depths and a mask", (struct shape){FUTSKHERI_U16, 2, 20, 20, 300, 1}, 7);
    raster_comes_back("65,536 depths", (struct shape){FUTSKHERI_I8, 1, 1, 3, 65536, 1}, 2);
    raster_comes_back("70,000 rows", (struct shape){FUTSKHERI_I16, 2, 70000, 1, 1, 1}, 0);
    raster_comes_back("one row of 8,400,000", (struct shape){FUTSKHERI_U32, 4, 1, 8400000, 1, 1}, 4200000);
    raster_comes_back("one value", (struct shape){FUTSKHERI_U8, 1, 1, 1, 1, 1}, 0);
    bands_come_back("one band of one value", (struct shape){FUTSKHERI_U8, 1, 1, 1, 1, 1}, 0);
    bands_come_back("5 bands of 17 depths, one mask", (struct shape){FUTSKHERI_U8, 1, 20, 20, 17, 5}, 1);
    bands_come_back("5 bands of 17 depths, five masks", (struct shape){FUTSKHERI_U8, 1, 20, 20, 17, 5}, 5);
    bands_come_back("16 bands of 300 depths", (struct shape){FUTSKHERI_U8, 1, 20, 20, 300, 16}, 0);
    bands_come_back("16 bands, 16 masks", (struct shape){FUTSKHERI_I32, 4, 20, 20, 1, 16}, 16);
    refusals_of_bands();
    sizes_of_decode();
    bands_over();
    null_pointers();
    headers_of_tiles();
    count("the header's version", strcmp(FUTSKHERI_VERSION, VERSION) == 0);
    printf("%d passed, %d failed\n", passed, failed);
    return failed != 0;
}
