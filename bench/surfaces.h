// Surfaces of which the bench makes its rasters, by row, column and depth, and masks, by row and column; the same on
// every machine.
#ifndef SURFACES_H
#define SURFACES_H

#include "heights.h"
#include <algorithm>
#include <cmath>
#include <cstdint>
#include <vector>

// ---- surfaces

inline double terrain(uint32_t i, uint32_t j, uint32_t) { return height(1, i, j); }

inline double image(uint32_t i, uint32_t j, uint32_t) {
    return 20 + 200 * smooth(7, i, j, 200) * smooth(8, i, j, 31) + 12 * at_corner(9, i, j);
}

// A photograph: plain things with edges in uneven light, each with a texture, and the noise of a camera.
inline double photo(uint32_t i, uint32_t j, uint32_t d) {
    int64_t a = int64_t(smooth(101, i, j, 170) * 7), b = int64_t(smooth(102, i, j, 260) * 7);
    double light = 0.4 + 0.6 * smooth(103, i, j, 900), tone = at_corner(104 + d, a, b);
    double texture = (smooth(110 + d, i, j, 9) - 0.5) * at_corner(107, a, b);
    double noise = at_corner(120 + d, i, j) + at_corner(130 + d, i, j) + at_corner(140 + d, i, j) - 1.5;
    double level = 20 + 220 * light * tone;
    return std::clamp(level + 30 * texture + (1 + level / 50) * noise, 0.0, 255.0);
}

inline double noise(uint32_t i, uint32_t j, uint32_t) {
    return double(int64_t(at_corner(11, i, j) * 2000000) - 1000000);
}

inline double classes(uint32_t i, uint32_t j, uint32_t) {
    int64_t a = int64_t(smooth(21, i, j, 60) * 9), b = int64_t(smooth(22, i, j, 90) * 9);
    return double(mix(uint64_t(a * 16 + b)) % 40);
}

inline double far_apart(uint32_t i, uint32_t j, uint32_t) {
    return double(mix(1 + mix(uint64_t(i) * 65536 + j) % 40) >> 34);
}

inline double sea(uint32_t i, uint32_t j, uint32_t) { return std::max(height(1, i, j) - 2000, 0.0); }

inline double sensor(uint32_t i, uint32_t j, uint32_t) { return 8 * height(3, i, j) + 16 * at_corner(4, i, j); }

inline double anomaly(uint32_t i, uint32_t j, uint32_t) {
    return std::floor(20 * smooth(7, i, j, 40) + 3 * at_corner(9, i, j)) - 12;
}

// Heights under the sea in centimetres, with the noise of a sounding.
inline double sounding(double deep, uint32_t i, uint32_t j) { return deep + 6 * at_corner(221, i, j); }

// Twelve classes of land cover, in ragged patches, by the numbers that such maps give them.
inline double cover(uint32_t i, uint32_t j, uint32_t) {
    static const int numbers[12] = {10, 20, 30, 40, 50, 60, 70, 80, 90, 95, 100, 110};
    double a = smooth(211, i, j, 70) + 0.4 * smooth(212, i, j, 9) + 0.12 * smooth(213, i, j, 2.3);
    double b = smooth(214, i, j, 110) + 0.3 * smooth(215, i, j, 7);
    return numbers[mix(uint64_t(int64_t(a * 6) * 16 + int64_t(b * 5))) % 12];
}

// A drawn map in colours: plain areas, and roads along the edges of others.
inline double drawn_map(uint32_t i, uint32_t j, uint32_t d) {
    static const int colours[5][3] = {{242, 239, 233}, {170, 211, 223}, {173, 209, 158}, {224, 223, 223}, {205, 235, 176}};
    double plain = colours[std::min(4, int(smooth(241, i, j, 80) * 5))][d];
    double road = std::fabs(smooth(242, i, j, 45) - 0.5) * 45;
    return road < 1 ? road * plain + (1 - road) * (d == 2 ? 164 : 250) : plain;
}

// A photograph whose fourth depth says how opaque it is: all, or nothing.
inline double opaque_photo(uint32_t i, uint32_t j, uint32_t d) {
    return d < 3 ? photo(i, j, d) : smooth(231, i, j, 300) > 0.3 ? 255 : 0;
}

// A band of a satellite's sensor.
inline double band(uint32_t i, uint32_t j, uint32_t d) {
    double noise = at_corner(251 + d, i, j) + at_corner(261 + d, i, j) - 1;
    return std::clamp(200 + photo(i, j, 0) * (9 + 3 * d) + 40 * noise + 300 * smooth(255 + d, i, j, 25), 0.0, 65535.0);
}

// One number nearly everywhere, and one pixel of a thousand another one, of up to `most`.
inline double salted(uint32_t i, uint32_t j, double most) {
    return at_corner(271, i, j) < 0.001 ? at_corner(272, i, j) * most : 17;
}

// Fractal heights, `high` at most at first: of a square with 2^n + 1 points a side the middle of each square and of
// each edge is the mean of its neighbours and a random part, which shrinks by `rough` from each square to its quarters.
class Fractal {
public:
    Fractal(uint32_t side, double high, double rough) : side_(side), points_(size_t(side + 1) * (side + 1)) {
        for (uint32_t i : {0u, side})
            for (uint32_t j : {0u, side})
                at(i, j) = random(i, j) * high;
        for (uint32_t step = side; step > 1; step /= 2, high *= rough) {
            uint32_t half = step / 2;
            for (uint32_t i = half; i < side; i += step)
                for (uint32_t j = half; j < side; j += step)
                    at(i, j) = (at(i - half, j - half) + at(i - half, j + half) + at(i + half, j - half)
                                + at(i + half, j + half)) / 4 + random(i, j) * high;
            for (uint32_t i = 0; i <= side; i += half)
                for (uint32_t j = (i / half + 1) % 2 * half; j <= side; j += step)
                    at(i, j) = mean_beside(i, j, half) + random(i, j) * high * rough;
        }
    }

    double operator()(uint32_t i, uint32_t j, uint32_t) const { return points_[size_t(i) * (side_ + 1) + j]; }

private:
    double &at(uint32_t i, uint32_t j) { return points_[size_t(i) * (side_ + 1) + j]; }

    static double random(uint32_t i, uint32_t j) { return 2 * at_corner(31, i, j) - 1; }

    double mean_beside(uint32_t i, uint32_t j, uint32_t half) {
        double sum = 0;
        int count = 0;
        if (i > 0)
            sum += at(i - half, j), count++;
        if (i < side_)
            sum += at(i + half, j), count++;
        if (j > 0)
            sum += at(i, j - half), count++;
        if (j < side_)
            sum += at(i, j + half), count++;
        return sum / count;
    }

    uint32_t side_;
    std::vector<double> points_;
};

// How bright a hill's side is in light from the upper left, from 0 to 255.
inline double shade(const Fractal &heights, uint32_t i, uint32_t j, uint32_t) {
    double x = (heights(i, j + 1, 0) - heights(i, j, 0)) / 6, y = (heights(i + 1, j, 0) - heights(i, j, 0)) / 6;
    return std::clamp(255 * (0.7 + 0.5 * x - 0.5 * y) / std::sqrt(1 + x * x + y * y), 0.0, 255.0);
}

// ---- masks

inline bool in_patch(uint64_t seed, uint32_t i, uint32_t j) { return smooth(seed, i, j, 48) > 0.35; }

inline bool in_rag(uint64_t seed, uint32_t i, uint32_t j) {
    return smooth(20 + seed, i, j, 60) + 0.35 * at_corner(30 + seed, i, j) > 1;
}

inline bool is_salt(uint32_t i, uint32_t j) { return at_corner(5, i, j) > 0.5; }

// Where a model of heights has no void.
inline bool is_measured(uint32_t i, uint32_t j) { return smooth(201, i, j, 37) + 0.25 * smooth(202, i, j, 5) < 1.02; }

// Where land is, behind a ragged coast.
inline bool is_land(uint32_t i, uint32_t j) {
    return smooth(216, i, j, 600) + 0.2 * smooth(217, i, j, 30) + 0.05 * smooth(218, i, j, 4) > 0.45;
}

#endif
