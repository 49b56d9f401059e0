// Writes a stream of tiles: COUNT tiles of SIDE by SIDE heights of two bytes, one for each of the first slots.
#include "heights.h"
#include <cstdio>
#include <cstdlib>
#include <string>

namespace {

void number(std::string &out, uint32_t value, int bytes) {
    for (int k = 0; k < bytes; k++)
        out.push_back(char(value >> (8 * k)));
}

std::string tile(uint32_t row, uint32_t col, uint32_t side) {
    std::string out{'T', char(row), char(col), 'L', 'G', 'R', '1', 2};
    number(out, side, 4);
    number(out, side, 4);
    number(out, 1, 4);
    out.append(side * side, 1);
    for (uint32_t i = 0; i < side; i++)
        for (uint32_t j = 0; j < side; j++)
            number(out, uint32_t(int32_t(height(1, row * side + i, col * side + j))), 2);
    return out;
}

} // namespace

int main(int count, char **words) {
    if (count != 3)
        return 1;
    uint32_t tiles = uint32_t(std::atoi(words[1])), side = uint32_t(std::atoi(words[2]));
    for (uint32_t n = 0; n < tiles && n < 128 * 128; n++) {
        std::string bytes = tile(n / 128, n % 128, side);
        if (std::fwrite(bytes.data(), 1, bytes.size(), stdout) != bytes.size())
            return 1;
    }
    return 0;
}
