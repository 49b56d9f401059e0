// What an overview of a thousand tiles of 256 by 256 heights is made of, by the library and in one thread: decoding each
// tile, halving each four, and encoding the halves. Prints the milliseconds of processor time of each, of the best round,
// and of the three together.
// parts [ROUNDS]
#include "calls.h"
#include "heights.h"
#include <vector>

namespace {

constexpr uint32_t side = 256, many = 1000, across = 128;

// The heights of a tile, as bench/stream gives them.
Raster tile(uint32_t row, uint32_t col) {
    return made<int16_t>(FUTSKHERI_I16, side, side, 1,
                         [=](uint32_t i, uint32_t j, uint32_t) { return height(1, row * side + i, col * side + j); });
}

// A coarse tile: of the pixels of its half the sums of the valid ones of their four, and how many these are.
struct Sums {
    std::vector<int32_t> sums = std::vector<int32_t>(size_t(side) * side, 0);
    std::vector<uint8_t> counts = std::vector<uint8_t>(size_t(side) * side, 0);

    void lay(const Raster &r, uint32_t quarter) {
        const int16_t *values = reinterpret_cast<const int16_t *>(r.values.data());
        for (uint32_t i = 0; i < side; i++)
            for (uint32_t j = 0; j < side; j += 2) {
                size_t at = (quarter / 2 * side + i) / 2 * side + (quarter % 2 * side + j) / 2;
                sums[at] += values[size_t(i) * side + j] + values[size_t(i) * side + j + 1];
                counts[at] += 2;
            }
    }

    // The means of the pixels that have one.
    void halve(Raster &r) const {
        int16_t *values = reinterpret_cast<int16_t *>(r.values.data());
        r.is_masked = false;
        std::fill(r.mask.begin(), r.mask.end(), 0);
        for (size_t k = 0; k < sums.size(); k++) {
            values[k] = 0;
            if (counts[k] == 0) {
                r.is_masked = true;
                continue;
            }
            r.mask[k / 8] |= uint8_t(128 >> k % 8);
            int32_t twice = 2 * sums[k] + counts[k], by = 2 * counts[k];
            values[k] = int16_t(twice >= 0 ? twice / by : -((-twice + by - 1) / by));
        }
    }
};

} // namespace

int main(int count, char **words) {
    int rounds = count > 1 ? std::atoi(words[1]) : 5;
    Raster one = tile(0, 0);
    std::vector<uint8_t> room(room_for(one));
    std::vector<std::vector<uint8_t>> blobs(many);
    for (uint32_t n = 0; n < many; n++) {
        Raster r = tile(n / across, n % across);
        size_t size = ours_encode(r, 4, 0, room.data(), room.size());
        blobs[n].assign(room.begin(), room.begin() + ptrdiff_t(size));
    }
    double best[3] = {1e9, 1e9, 1e9};
    uint32_t coarse_rows = (many / across + 2) / 2;
    for (int round = 0; round < rounds; round++) {
        double took[3] = {0, 0, 0};
        for (uint32_t place = 0; place < coarse_rows * across / 2; place++) {
            Sums sums;
            bool some = false;
            for (uint32_t quarter = 0; quarter < 4; quarter++) {
                uint32_t n = (place / (across / 2) * 2 + quarter / 2) * across + place % (across / 2) * 2 + quarter % 2;
                if (n >= many)
                    continue;
                some = true;
                double begin = seconds();
                ours_decode(blobs[n].data(), blobs[n].size(), one);
                double middle = seconds();
                sums.lay(one, quarter);
                took[0] += middle - begin;
                took[1] += seconds() - middle;
            }
            if (!some)
                continue;
            double begin = seconds();
            sums.halve(one);
            double middle = seconds();
            ours_encode(one, 4, 0, room.data(), room.size());
            took[1] += middle - begin;
            took[2] += seconds() - middle;
        }
        for (int k = 0; k < 3; k++)
            best[k] = took[k] < best[k] ? took[k] : best[k];
    }
    double all = best[0] + best[1] + best[2];
    std::printf("decoding %.0f ms, halving %.0f ms, encoding %.0f ms, together %.0f ms\n", best[0] * 1e3, best[1] * 1e3,
                best[2] * 1e3, all * 1e3);
    return 0;
}
