/* Futskheri from C: LERC2 blobs of versions 3 and 4 with whole numbers, looked at, decoded and encoded.
 *
 * The functions are those of the crate lerc_c, each proved to meet its contract; this header says the
 * contracts to C. bin/build_c builds out/libfutskheri.a.
 *
 * Rasters. A raster has rows, columns and depths (values of a pixel), all at least 1, at most 65,536 depths
 * and at most 2^24 values. An array of values has a value of the raster's type for each pixel and depth, row by
 * row, the depths innermost: rows * cols * depth values of 1, 2 or 4 bytes, in the byte order of x86-64. A
 * mask has a bit for each pixel, row by row, the highest bit of each byte first, 1 where the pixel is valid:
 * (rows * cols + 7) / 8 bytes.
 *
 * Memory. All sizes are in bytes. The caller owns every array. A call reads what it takes by const, writes
 * what its words say and nothing else, keeps no pointer, and gives back what it takes of malloc. It never
 * aborts: where malloc gives nothing it answers FUTSKHERI_NO_MEMORY.
 *
 * The caller's duty, which nothing checks: a pointer is not null; it leads to as many bytes as the size beside it
 * says, all of them written before where they are read; arrays and structs that a call writes overlap nothing else
 * that is passed; a struct lies at an address of its alignment; sizes are below 2^63. malloc, realloc and free come
 * from one allocator. No call comes from a signal handler, or from the forked child of a process with threads.
 *
 * Null pointers. The functions take none, also where the size is 0. In C and C++ the macros at the end of this header
 * hand them one that is not null in the place of a null `mask` or `masks`, which with the size 0 says that every pixel
 * is valid, and of a null `out`, which with the size 0 asks for the size of a blob. Who calls the library from elsewhere
 * passes any pointer there.
 *
 * Threads. The functions have no state: they may be called from several threads at once, as long as no call
 * writes what another one uses. A call takes up to some 140,000 bytes of its thread's stack (found by trial, not
 * proved): give a thread 256 KB.
 */
#ifndef FUTSKHERI_H
#define FUTSKHERI_H

#include <stddef.h>
#include <stdint.h>

/* The version of the library that this header came with. */
#define FUTSKHERI_VERSION_MAJOR 0
#define FUTSKHERI_VERSION_MINOR 1
#define FUTSKHERI_VERSION_PATCH 0
#define FUTSKHERI_VERSION "0.1.0"

#ifdef __cplusplus
extern "C" {
#endif

/* What a call answers. */
enum {
    FUTSKHERI_OK = 0,
    FUTSKHERI_REFUSED = 1,        /* the bytes are no blob; the fault says why */
    FUTSKHERI_NO_MEMORY = 2,
    FUTSKHERI_BAD_SIZES = 3,      /* an array is not as long as the raster asks for */
    FUTSKHERI_BAD_KIND = 4,       /* no pixel type has the number */
    FUTSKHERI_BAD_VERSION = 5,    /* the version is neither 3 nor 4 */
    FUTSKHERI_BAD_SHAPE = 6,      /* there are no rows, no columns or no depths */
    FUTSKHERI_TOO_LARGE = 7,      /* there are more than 65,536 depths or 2^24 values */
    FUTSKHERI_DEPTH_NEEDS_V4 = 8, /* version 3 has no place for a second depth */
    FUTSKHERI_NO_ROOM = 9         /* the blob is longer than the buffer */
};

/* The pixel types. */
enum {
    FUTSKHERI_I8 = 0,
    FUTSKHERI_U8 = 1,
    FUTSKHERI_I16 = 2,
    FUTSKHERI_U16 = 3,
    FUTSKHERI_I32 = 4,
    FUTSKHERI_U32 = 5
};

/* The first fault of bytes that are no blob. */
struct futskheri_fault {
    uint64_t place;  /* where the field begins that fails, in bytes from the first */
    uint32_t reason; /* the number of the reason, 1 to 31, or 33, BadBand, of a tile; futskheri_reason_name has
                        its name */
    uint32_t stated; /* BadChecksum and BadMaskCount: what the blob says, else 0 */
    uint32_t found;  /* and what was found, else 0 */
};

/* What the header of a blob says. */
struct futskheri_head {
    uint64_t step;     /* twice the greatest error of a value: at least 1; 1 where every value is exact */
    int64_t least;     /* the least and the greatest valid value, both 0 where no pixel is valid */
    int64_t greatest;
    uint32_t version;  /* 3 or 4 */
    uint32_t kind;     /* the pixel type */
    uint32_t rows;
    uint32_t cols;
    uint32_t depth;
    uint32_t valid;    /* how many pixels are valid */
    uint32_t side;     /* the side of the square blocks, in pixels */
    uint32_t size;     /* how many bytes the blob has, at most 2^27 */
    uint32_t checksum; /* as the header has it; it is not tested here */
};

/* Reads the header with which the bytes begin. OK: *head has its numbers, and *fault stays.
 * REFUSED: *fault is the header's first fault, and *head stays. It takes no memory, and looks at no byte
 * behind the header, so a blob that it reads may still be refused by futskheri_decode. */
uint32_t futskheri_header(const uint8_t *blob, size_t blob_size, struct futskheri_head *head,
                          struct futskheri_fault *fault);

/* Decodes the blob with which the bytes begin; what follows it is not looked at.
 * OK: values has the raster's values, 0 at the places of invalid pixels, and mask its mask, the bits behind the
 * last pixel 0. REFUSED: *fault is the blob's first fault, `Truncated` where the bytes end before the blob does.
 * NO_MEMORY comes only behind a whole header, there also in the place of OK. BAD_SIZES: the bytes begin with a
 * blob, and values_size or mask_size is not what its raster asks for (see the head of this file; the header has
 * type and shape). Where every pixel is valid mask_size may be 0 (and mask null): the values alone are given then.
 * Where it is not OK the arrays stay as they were; where it is not REFUSED *fault does. */
uint32_t futskheri_decode(const uint8_t *blob, size_t blob_size, void *values, size_t values_size,
                          uint8_t *mask, size_t mask_size, struct futskheri_fault *fault);

/* The same without a copy: the values are laid into the caller's arrays at once, which is faster where every pixel is
 * valid. It takes no memory, and never answers NO_MEMORY. It always wants the array of the mask.
 * OK and REFUSED: as above. BAD_SIZES: the bytes begin with a header that asks for arrays of other lengths;
 * what follows the header was not looked at, and the arrays stay as they were. Where it is REFUSED they may hold
 * anything; where it is not *fault stays. Take it where the arrays are there for this raster. Where they have to keep
 * what they have if the blob turns out to be none, take futskheri_decode. */
uint32_t futskheri_decode_over(const uint8_t *blob, size_t blob_size, void *values, size_t values_size,
                               uint8_t *mask, size_t mask_size, struct futskheri_fault *fault);

/* A size that no blob of a raster of this type and shape passes, whatever its values, its mask, the version and
 * the error are; 0 where there is no such raster. */
uint64_t futskheri_greatest_size(uint32_t kind, uint32_t rows, uint32_t cols, uint32_t depth);

/* Encodes a raster of this type and shape into the front of out, in version 3 or 4, so that no value changes by
 * more than error (0: none changes). At the places of invalid pixels any bytes may stand in values.
 * mask_size 0: every pixel is valid, and mask may be null. Values and mask are read where they lie, and nothing of them
 * is copied. It takes memory for what it knows of a raster before it writes: a bit for each block of 8 and each of 16
 * rows and columns at each depth, but at most 128 bytes for each row of such blocks.
 * OK: *size is the size of the blob. NO_ROOM: *size is the size that the blob would have, so out_size 0, where out may
 * be null, asks for it. Else *size stays; where it is not OK, out stays. The first of these that holds is answered:
 * BAD_KIND, BAD_VERSION, BAD_SHAPE, TOO_LARGE, BAD_SIZES, DEPTH_NEEDS_V4, NO_ROOM; NO_MEMORY may come instead of the
 * last, and instead of OK. */
uint32_t futskheri_encode(uint32_t kind, uint32_t rows, uint32_t cols, uint32_t depth, uint32_t version,
                          uint32_t error, const void *values, size_t values_size, const uint8_t *mask,
                          size_t mask_size, uint8_t *out, size_t out_size, uint64_t *size);

/* Tiles of bands. A tile is 1 to 16 blobs, one behind the other, each of a band: rasters of one type, rows, columns
 * and depth, with at most 2^24 values together. A blob behind the first may take the mask of the one before it.
 * Arrays of bands lie band behind band. All the bytes that are passed are the tile. */

/* Counts the blobs of a tile. OK: *bands is their number. REFUSED: *fault is what is wrong first. What is not
 * named stays. It decodes the tile, so a tile that it counts is decoded by the next call, where memory is there. */
uint32_t futskheri_count_bands(const uint8_t *blob, size_t blob_size, uint32_t *bands, struct futskheri_fault *fault);

/* Counts the blobs of a tile by their headers alone: nothing else is looked at, and no memory is taken.
 * OK: the bytes are *bands parts, 1 to 16, each as long as the header says with which it begins; of a tile these are
 * its blobs, but bytes that are so counted may still be refused by futskheri_decode_bands. REFUSED: the bytes are no
 * tile, and *fault says what is wrong behind the parts that stand: the first fault of the next header, `Truncated` where
 * the bytes end before the part does, `Leftover` where bytes follow 16 parts. What is not named stays. */
uint32_t futskheri_bands_of_headers(const uint8_t *blob, size_t blob_size, uint32_t *bands,
                                    struct futskheri_fault *fault);

/* Decodes a tile of so many bands. OK: values has the values of all bands, 0 at the places of invalid pixels, and
 * masks a mask for each. REFUSED: *fault is what is wrong first: that of a blob, its place counted from the first
 * byte, or BadBand, where a header is not like the first blob's. NO_MEMORY comes only behind a whole header, there
 * also in the place of OK. BAD_SIZES: the bytes are a tile of more or fewer bands, or values_size or masks_size is
 * not what they ask for. Where every pixel of each band is valid masks_size may be 0 (and masks null).
 * Where it is not OK the arrays stay as they were; where it is not REFUSED *fault does. */
uint32_t futskheri_decode_bands(const uint8_t *blob, size_t blob_size, uint32_t bands, void *values,
                                size_t values_size, uint8_t *masks, size_t masks_size,
                                struct futskheri_fault *fault);

/* The same without a copy, as futskheri_decode_over does it: the values are laid into the caller's arrays at once. It
 * takes no memory, and never answers NO_MEMORY. It always wants the array of the masks.
 * OK and REFUSED: as above. BAD_SIZES has two causes. The bytes begin with a header, and a tile may not have so many bands
 * of its raster (none, above 16, or above 2^24 values together), or they ask for arrays of other lengths: what follows the
 * header was not looked at, and the arrays stay as they were. Or so many blobs stand and another one begins, or the bytes
 * are fewer blobs: then the arrays may hold anything, as they may where it is REFUSED. Where it is not REFUSED *fault
 * stays. */
uint32_t futskheri_decode_bands_over(const uint8_t *blob, size_t blob_size, uint32_t bands, void *values,
                                     size_t values_size, uint8_t *masks, size_t masks_size,
                                     struct futskheri_fault *fault);

/* Encodes so many bands of this type and shape, as futskheri_encode does one. masks_size 0: every pixel is valid, and
 * masks may be null; the size of one mask: it is that of all bands; else there is a mask for each. A mask that is the one
 * of the band before is left out of the blob.
 * OK: *size is the size of all blobs. NO_ROOM: *size is the size that they would have, so out_size 0, where out may be
 * null, asks for it. Else *size stays; where it is not OK, out stays. The first of these that holds is answered: BAD_KIND,
 * BAD_VERSION, BAD_SHAPE (also for no bands), TOO_LARGE (also for more than 16 bands or 2^24 values in all), BAD_SIZES,
 * DEPTH_NEEDS_V4, NO_ROOM; NO_MEMORY may come instead of the last, and instead of OK. */
uint32_t futskheri_encode_bands(uint32_t kind, uint32_t rows, uint32_t cols, uint32_t depth, uint32_t bands,
                                uint32_t version, uint32_t error, const void *values, size_t values_size,
                                const uint8_t *masks, size_t masks_size, uint8_t *out, size_t out_size,
                                uint64_t *size);

/* Writes the name of a reason, as `BadChecksum`, into out, as much of it as there is room for and with no 0
 * behind it, and answers how long the name is: at most 30, and 0 where no reason has the number. None has 0. */
size_t futskheri_reason_name(uint32_t reason, uint8_t *out, size_t out_size);

/* Null pointers, as callers of liblerc pass them: in their place a byte that is neither read nor written, since the
 * size beside it is 0. Each argument is evaluated once. An argument with a comma outside of parentheses, as in a
 * compound literal, is written in parentheses; (futskheri_encode)(..), with the name in parentheses, is the function
 * itself, which takes no null pointer. */
static inline const uint8_t *futskheri_given_bytes(const uint8_t *bytes) {
    static const uint8_t none = 0;
    return bytes ? bytes : &none;
}
static inline uint8_t *futskheri_given_room(uint8_t *room) {
    static uint8_t none;
    return room ? room : &none;
}
#define futskheri_encode(kind, rows, cols, depth, version, error, values, values_size, mask, mask_size, out, out_size, \
                         size)                                                                                        \
    futskheri_encode(kind, rows, cols, depth, version, error, values, values_size, futskheri_given_bytes(mask),       \
                     mask_size, futskheri_given_room(out), out_size, size)
#define futskheri_encode_bands(kind, rows, cols, depth, bands, version, error, values, values_size, masks, masks_size, \
                               out, out_size, size)                                                                   \
    futskheri_encode_bands(kind, rows, cols, depth, bands, version, error, values, values_size,                       \
                           futskheri_given_bytes(masks), masks_size, futskheri_given_room(out), out_size, size)
#define futskheri_decode(blob, blob_size, values, values_size, mask, mask_size, fault) \
    futskheri_decode(blob, blob_size, values, values_size, futskheri_given_room(mask), mask_size, fault)
#define futskheri_decode_bands(blob, blob_size, bands, values, values_size, masks, masks_size, fault) \
    futskheri_decode_bands(blob, blob_size, bands, values, values_size, futskheri_given_room(masks), masks_size, fault)

#ifdef __cplusplus
}
#endif

#endif
