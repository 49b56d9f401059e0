// The sets of rasters that the bench encodes and decodes, in families, made by generators, the same on every machine.
#ifndef SETS_H
#define SETS_H

#include "rasters.h"
#include "surfaces.h"
#include <functional>
#include <string>

// Rasters by a name, and how they are encoded: in which version, with which error.
struct Set {
    std::string name;
    uint32_t error;
    std::function<std::vector<Raster>()> rasters;
    uint32_t version = 4;
};

// Sets of one kind, over which a mean is taken.
struct Family {
    std::string name;
    std::vector<Set> sets;
};

// ---- how a set is made

// One raster of all values of a surface.
template <class T, class F> std::function<std::vector<Raster>()> one(uint32_t kind, uint32_t rows, uint32_t cols, F surface) {
    return [=] { return std::vector{made<T>(kind, rows, cols, 1, surface)}; };
}

// Tiles of a surface, `across` of them side by side and then the next row of them.
template <class T, class F>
std::vector<Raster> cut(uint32_t kind, uint32_t side, uint32_t depth, uint32_t count, uint32_t across, const F &surface) {
    return tiles(count, [&](uint32_t t) {
        return made<T>(kind, side, side, depth, [&](uint32_t i, uint32_t j, uint32_t d) {
            return surface(i + side * (t / across), j + side * (t % across), d);
        });
    });
}

template <class F> std::function<std::vector<Raster>()> byte_tiles(uint32_t side, uint32_t depth, uint32_t count, F surface) {
    return [=] { return cut<uint8_t>(FUTSKHERI_U8, side, depth, count, 8, surface); };
}

// Tiles of terrain, one below the other.
inline std::function<std::vector<Raster>()> terrain_tiles(uint32_t side, uint32_t count) {
    return [=] { return cut<int16_t>(FUTSKHERI_I16, side, 1, count, 1, terrain); };
}

// A model of heights, 2,048 by 2,048, `high` at most above or below `base` at its coarsest.
template <class T> std::function<std::vector<Raster>()> model(uint32_t kind, double high, double base) {
    return [=] {
        Fractal surface(2048, high, 0.52);
        return std::vector{made<T>(kind, 2048, 2048, 1, [&](uint32_t i, uint32_t j, uint32_t d) { return base + surface(i, j, d); })};
    };
}

// Sixteen tiles of hills, 257 by 257, each with the pixels valid that `is_valid` says by its number.
template <class F> std::function<std::vector<Raster>()> masked_hills(F is_valid) {
    return [=] {
        return tiles(16, [=](uint32_t t) {
            auto hills = [t](uint32_t i, uint32_t j, uint32_t) { return height(40 + t, i, j); };
            return masked(made<int16_t>(FUTSKHERI_I16, 257, 257, 1, hills),
                          [=](uint32_t i, uint32_t j) { return is_valid(60 + t, i, j); });
        });
    };
}

// One raster of the values of a surface, with the pixels valid that `is_valid` says.
template <class T, class F, class V>
std::function<std::vector<Raster>()> one_masked(uint32_t kind, uint32_t side, F surface, V is_valid) {
    return [=] { return std::vector{masked(made<T>(kind, side, side, 1, surface), is_valid)}; };
}

// ---- the sets

inline Family heights() {
    auto fractal = [](uint32_t side) {
        return [=] { return std::vector{made<int16_t>(FUTSKHERI_I16, side, side, 1, Fractal(4096, 3000, 0.55))}; };
    };
    auto whole = one<int16_t>(FUTSKHERI_I16, 4096, 4096, terrain);
    return {"heights of 16 bits", {
        {"terrain i16 4096x4096, lossless", 0, whole},
        {"terrain i16 4096x4096, error 1", 1, whole},
        {"terrain i16 2048x2048, version 3, lossless", 0, one<int16_t>(FUTSKHERI_I16, 2048, 2048, terrain), 3},
        {"fractal i16 4096x4096, lossless", 0, fractal(4096)},
        {"fractal i16 512x512, lossless", 0, fractal(512)},
        {"model i16 2048x2048, error 50", 50, model<int16_t>(FUTSKHERI_I16, 1400, 900)},
        {"half flat i16 4096x4096, lossless", 0, one<int16_t>(FUTSKHERI_I16, 4096, 4096, sea)},
        {"voids are -32768 i16 2048x2048, lossless", 0,
         [] {
             Fractal surface(2048, 1400, 0.52);
             return std::vector{made<int16_t>(FUTSKHERI_I16, 2048, 2048, 1, [&](uint32_t i, uint32_t j, uint32_t d) {
                 return is_measured(i, j) ? 900 + surface(i, j, d) : -32768;
             })};
         }},
        {"salt i16 2048x2048, lossless", 0,
         one<int16_t>(FUTSKHERI_I16, 2048, 2048, [](uint32_t i, uint32_t j, uint32_t) { return salted(i, j, 3000); })},
        {"sensor u16 2048x2048, lossless", 0, one<uint16_t>(FUTSKHERI_U16, 2048, 2048, sensor)},
        {"satellite u16 2048x2048, lossless", 0, one<uint16_t>(FUTSKHERI_U16, 2048, 2048, band)},
        {"constant i16 4096x4096, lossless", 0,
         one<int16_t>(FUTSKHERI_I16, 4096, 4096, [](uint32_t, uint32_t, uint32_t) { return 1234; })},
    }};
}

inline Family wide_heights() {
    auto wide = [] { return std::vector{made<int32_t>(FUTSKHERI_I32, 2048, 2048, 1, Fractal(2048, 300000, 0.55))}; };
    auto sea_floor = [] {
        Fractal surface(2048, 220000, 0.52);
        return std::vector{made<int32_t>(FUTSKHERI_I32, 2048, 2048, 1, [&](uint32_t i, uint32_t j, uint32_t d) {
            return sounding(surface(i, j, d) - 280000, i, j);
        })};
    };
    return {"heights of 32 bits", {
        {"fractal i32 2048x2048, lossless", 0, wide},
        {"fractal i32 2048x2048, error 10", 10, wide},
        {"fractal i32 2048x2048, error 100", 100, wide},
        {"bathymetry i32 2048x2048, lossless", 0, sea_floor},
        {"bathymetry i32 2048x2048, error 10", 10, sea_floor},
        {"noise i32 2048x2048, lossless", 0, one<int32_t>(FUTSKHERI_I32, 2048, 2048, noise)},
        {"40 values far apart i32 2048x2048, lossless", 0, one<int32_t>(FUTSKHERI_I32, 2048, 2048, far_apart)},
    }};
}

inline Family images() {
    auto of_photo = one<uint8_t>(FUTSKHERI_U8, 4096, 4096, photo);
    auto shaded = [] {
        Fractal surface(4096, 3000, 0.55);
        return std::vector{made<uint8_t>(FUTSKHERI_U8, 2048, 2048, 1, [&](uint32_t i, uint32_t j, uint32_t d) {
            return shade(surface, i, j, d);
        })};
    };
    return {"8-bit images", {
        {"image u8 4096x4096, lossless", 0, one<uint8_t>(FUTSKHERI_U8, 4096, 4096, image)},
        {"photo u8 4096x4096, lossless", 0, of_photo},
        {"photo u8 4096x4096, error 2", 2, of_photo},
        {"photo u8 2048x2048, version 3, lossless", 0, one<uint8_t>(FUTSKHERI_U8, 2048, 2048, photo), 3},
        {"hillshade u8 2048x2048, lossless", 0, shaded},
        {"hillshade u8 2048x2048, error 1", 1, shaded},
        {"40 classes u8 4096x4096, lossless", 0, one<uint8_t>(FUTSKHERI_U8, 4096, 4096, classes)},
        {"land cover u8 4096x4096, no data is 255, lossless", 0,
         one<uint8_t>(FUTSKHERI_U8, 4096, 4096, [](uint32_t i, uint32_t j, uint32_t d) { return is_land(i, j) ? cover(i, j, d) : 255; })},
        {"salt u8 2048x2048, lossless", 0,
         one<uint8_t>(FUTSKHERI_U8, 2048, 2048, [](uint32_t i, uint32_t j, uint32_t) { return salted(i, j, 255); })},
        {"i8 2048x2048, lossless", 0, one<int8_t>(FUTSKHERI_I8, 2048, 2048, anomaly)},
    }};
}

inline Family deep() {
    auto bands = [] { return std::vector{made<uint16_t>(FUTSKHERI_U16, 1024, 1024, 4, band)}; };
    return {"several depths", {
        {"photo u8 1024x1024, depth 3, lossless", 0, [] { return std::vector{made<uint8_t>(FUTSKHERI_U8, 1024, 1024, 3, photo)}; }},
        {"64 photo tiles u8 256x256, depth 3, lossless", 0, byte_tiles(256, 3, 64, photo)},
        {"64 photo tiles u8 256x256, depth 4, lossless", 0, byte_tiles(256, 4, 64, opaque_photo)},
        {"64 drawn tiles u8 256x256, depth 3, lossless", 0, byte_tiles(256, 3, 64, drawn_map)},
        {"satellite u16 1024x1024, depth 4, lossless", 0, bands},
        {"satellite u16 1024x1024, depth 4, error 8", 8, bands},
    }};
}

inline Family masked_ones() {
    auto patches = [](uint64_t seed, uint32_t i, uint32_t j) { return in_patch(seed, i, j); };
    auto rags = [](uint64_t seed, uint32_t i, uint32_t j) { return in_rag(seed, i, j); };
    return {"masked rasters", {
        {"16 tiles i16 257x257, masks, error 1", 1, masked_hills(patches)},
        {"16 tiles i16 257x257, masks, version 3, error 1", 1, masked_hills(patches), 3},
        {"16 tiles i16 257x257, ragged masks, error 1", 1, masked_hills(rags)},
        {"voids i16 2048x2048, lossless", 0,
         [] {
             Fractal surface(2048, 1400, 0.52);
             return std::vector{masked(made<int16_t>(FUTSKHERI_I16, 2048, 2048, 1, surface), is_measured)};
         }},
        {"i16 1024x1024, half valid at random, error 1", 1, one_masked<int16_t>(FUTSKHERI_I16, 1024, terrain, is_salt)},
        {"photo u8 1024x1024, mask, lossless", 0,
         one_masked<uint8_t>(FUTSKHERI_U8, 1024, photo, [](uint32_t i, uint32_t j) { return smooth(61, i, j, 90) > 0.35; })},
        {"land cover u8 4096x4096, mask, lossless", 0, one_masked<uint8_t>(FUTSKHERI_U8, 4096, cover, is_land)},
        {"all invalid i16 4096x4096", 0,
         one_masked<int16_t>(FUTSKHERI_I16, 4096, terrain, [](uint32_t, uint32_t) { return false; })},
    }};
}

inline Family tiled() {
    return {"tiles", {
        {"8192 tiles i16 8x8, lossless", 0, terrain_tiles(8, 8192)},
        {"2048 tiles i16 16x16, lossless", 0, terrain_tiles(16, 2048)},
        {"256 tiles i16 64x64, lossless", 0, terrain_tiles(64, 256)},
        {"64 fractal tiles i16 256x256, lossless", 0,
         [] { return cut<int16_t>(FUTSKHERI_I16, 256, 1, 64, 8, Fractal(4096, 3000, 0.55)); }},
        {"16 fractal tiles i16 512x512, lossless", 0,
         [] { return cut<int16_t>(FUTSKHERI_I16, 512, 1, 16, 4, Fractal(4096, 3000, 0.55)); }},
        {"8192 photo tiles u8 8x8, lossless", 0, byte_tiles(8, 1, 8192, photo)},
        {"2048 photo tiles u8 16x16, lossless", 0, byte_tiles(16, 1, 2048, photo)},
        {"256 photo tiles u8 64x64, lossless", 0, byte_tiles(64, 1, 256, photo)},
        {"128 photo tiles u8 128x128, lossless", 0, byte_tiles(128, 1, 128, photo)},
        {"64 photo tiles u8 256x256, lossless", 0, byte_tiles(256, 1, 64, photo)},
        {"16 photo tiles u8 512x512, lossless", 0, byte_tiles(512, 1, 16, photo)},
    }};
}

inline Family strips() {
    auto row = [](uint32_t, uint32_t j, uint32_t) { return height(1, j / 1000, j % 1000); };
    auto column = [](uint32_t i, uint32_t, uint32_t) { return height(1, i / 1000, i % 1000); };
    return {"strips", {
        {"one row i16 1x1000000, lossless", 0, one<int16_t>(FUTSKHERI_I16, 1, 1000000, row)},
        {"one column i16 1000000x1, lossless", 0, one<int16_t>(FUTSKHERI_I16, 1000000, 1, column)},
        {"one row i16 1x20000, lossless", 0, one<int16_t>(FUTSKHERI_I16, 1, 20000, row)},
        {"one column i16 20000x1, lossless", 0, one<int16_t>(FUTSKHERI_I16, 20000, 1, column)},
    }};
}

inline std::vector<Family> all_families() {
    return {heights(), wide_heights(), images(), deep(), masked_ones(), tiled(), strips()};
}

#endif
