// Rasters as both libraries take them, and how they are made of a surface, pixel by pixel.
#ifndef RASTERS_H
#define RASTERS_H

#include "futskheri.h"
#include <algorithm>
#include <cstdint>
#include <vector>

using Bytes = std::vector<uint8_t>;

struct Raster {
    uint32_t kind, rows, cols, depth;
    Bytes values;     // of all pixels, in the type's width
    Bytes mask;       // a bit for each pixel
    Bytes valid;      // a byte for each pixel, as Esri's library takes it
    bool is_masked;
};

// A raster all of whose pixels are valid, whose values are those of `value` by row, column and depth.
template <class T, class F> Raster made(uint32_t kind, uint32_t rows, uint32_t cols, uint32_t depth, F value) {
    size_t pixels = size_t(rows) * cols;
    Raster r{kind, rows, cols, depth, Bytes(pixels * depth * sizeof(T)), Bytes((pixels + 7) / 8, 0), Bytes(pixels, 1), false};
    T *out = reinterpret_cast<T *>(r.values.data());
    for (uint32_t i = 0; i < rows; i++)
        for (uint32_t j = 0; j < cols; j++)
            for (uint32_t d = 0; d < depth; d++)
                *out++ = T(value(i, j, d));
    for (size_t k = 0; k < pixels; k++)
        r.mask[k / 8] |= uint8_t(128 >> (k % 8));
    return r;
}

// The raster with the pixels valid that `is_valid` says.
template <class F> Raster masked(Raster r, F is_valid) {
    r.is_masked = true;
    std::fill(r.mask.begin(), r.mask.end(), 0);
    for (size_t k = 0; k < r.valid.size(); k++) {
        r.valid[k] = is_valid(uint32_t(k / r.cols), uint32_t(k % r.cols));
        if (r.valid[k])
            r.mask[k / 8] |= uint8_t(128 >> (k % 8));
    }
    return r;
}

// The raster that `tile` makes of each number below `count`.
template <class F> std::vector<Raster> tiles(uint32_t count, F tile) {
    std::vector<Raster> all;
    for (uint32_t t = 0; t < count; t++)
        all.push_back(tile(t));
    return all;
}

#endif
