// Encoding and decoding by Futskheri and by Esri's library, in turn, of the sets of rasters of sets.h. Prints a
// table: for each set and each library megabytes of raster a second of processor time (10^6 bytes, the best round),
// how much faster Futskheri is, and the bytes of all blobs of the set. What is timed are the calls alone: every array
// was written to before. Each library decodes the other's blobs too, to the same values and mask; where it does not,
// or a value is further off than the error, the program ends with 1. Behind the table stands, for each family of sets
// and for all, the geometric mean of how much faster Futskheri is.
// compare ROUNDS [WORD]: the sets whose names have the word in them, else all.
#include "calls.h"
#include <Lerc_c_api.h>

namespace {

// The blobs of a set, each in a room of its own in one array.
struct Blobs {
    Bytes room;
    std::vector<size_t> starts, sizes;

    explicit Blobs(const std::vector<Raster> &rasters) : sizes(rasters.size()) {
        size_t end = 0;
        for (const Raster &r : rasters) {
            starts.push_back(end);
            end += room_for(r);
        }
        room.assign(end, 1);
        starts.push_back(end);
    }

    uint8_t *at(size_t k) { return room.data() + starts[k]; }
    size_t place(size_t k) const { return starts[k + 1] - starts[k]; }

    size_t total() const {
        size_t sum = 0;
        for (size_t size : sizes)
            sum += size;
        return sum;
    }
};

// ---- Esri's library

size_t theirs_encode(const Raster &r, uint32_t version, uint32_t error, uint8_t *out, size_t room) {
    unsigned int size = 0;
    if (lerc_encodeForVersion(r.values.data(), int(version), r.kind, int(r.depth), int(r.cols), int(r.rows), 1, r.is_masked ? 1 : 0,
                              r.is_masked ? r.valid.data() : nullptr, error, out, unsigned(room), &size) != 0)
        fail("lerc_encodeForVersion fails");
    return size;
}

void theirs_decode(const uint8_t *blob, size_t size, Raster &out) {
    if (lerc_decode(blob, unsigned(size), 1, out.valid.data(), int(out.depth), int(out.cols), int(out.rows), 1, out.kind,
                    out.values.data()) != 0)
        fail("lerc_decode fails");
}

// ---- comparing

int64_t value_at(const Raster &r, size_t k) {
    const void *values = r.values.data();
    switch (r.kind) {
    case FUTSKHERI_I8: return static_cast<const int8_t *>(values)[k];
    case FUTSKHERI_U8: return r.values[k];
    case FUTSKHERI_I16: return static_cast<const int16_t *>(values)[k];
    case FUTSKHERI_U16: return static_cast<const uint16_t *>(values)[k];
    case FUTSKHERI_I32: return static_cast<const int32_t *>(values)[k];
    default: return static_cast<const uint32_t *>(values)[k];
    }
}

// The values of a pixel are those of the other, and within the error of the given ones.
void compare_values(const Raster &given, const Raster &one, const Raster &other, size_t pixel, uint32_t error) {
    for (size_t k = pixel * given.depth; k < (pixel + 1) * given.depth; k++) {
        int64_t value = value_at(one, k);
        if (value != value_at(other, k) || std::llabs(value - value_at(given, k)) > int64_t(error))
            fail("the values differ at pixel " + std::to_string(pixel));
    }
}

// The bits of one are the bytes of the other, and the values at valid pixels are as they have to be.
void compare(const Raster &given, const Raster &bits, const Raster &bytes, uint32_t error) {
    for (size_t k = 0; k < given.valid.size(); k++) {
        bool valid = given.valid[k] != 0;
        if (((bits.mask[k / 8] >> (7 - k % 8)) & 1) != valid || (bytes.valid[k] != 0) != valid)
            fail("the masks differ at pixel " + std::to_string(k));
        if (valid)
            compare_values(given, bits, bytes, k, error);
    }
}

// Both libraries decode the blobs, to the same rasters.
void check_blobs(const std::vector<Raster> &given, Blobs &blobs, uint32_t error) {
    for (size_t k = 0; k < given.size(); k++) {
        Raster a = given[k], b = given[k];
        std::fill(a.values.begin(), a.values.end(), 0x5a);
        std::fill(b.values.begin(), b.values.end(), 0xa5);
        ours_decode(blobs.at(k), blobs.sizes[k], a);
        theirs_decode(blobs.at(k), blobs.sizes[k], b);
        compare(given[k], a, b, error);
    }
}

// ---- timing

struct Times {
    double encode = 1e9, decode = 1e9;
};

// How many times as fast Futskheri is, over several sets: sums of logarithms, for a geometric mean.
struct Mean {
    double encode = 0, decode = 0;
    int sets = 0;

    void add(const Times &mine, const Times &other) {
        encode += std::log(other.encode / mine.encode);
        decode += std::log(other.decode / mine.decode);
        sets++;
    }

    void add(const Mean &more) {
        encode += more.encode;
        decode += more.decode;
        sets += more.sets;
    }

    void print(const std::string &name) const {
        if (sets > 0)
            std::printf("| mean of %d: %s | | | %.2f | | | %.2f | | | |\n", sets, name.c_str(), std::exp(encode / sets),
                        std::exp(decode / sets));
    }
};

template <class Encode, class Decode>
void one_round(const Set &set, const std::vector<Raster> &rasters, Encode encode, Decode decode,
               std::vector<Raster> &back, Times &best, Blobs &blobs) {
    double start = seconds();
    for (size_t k = 0; k < rasters.size(); k++)
        blobs.sizes[k] = encode(rasters[k], set.version, set.error, blobs.at(k), blobs.place(k));
    best.encode = std::min(best.encode, seconds() - start);
    start = seconds();
    for (size_t k = 0; k < back.size(); k++)
        decode(blobs.at(k), blobs.sizes[k], back[k]);
    best.decode = std::min(best.decode, seconds() - start);
}

void run(const Set &set, int rounds, Mean &mean) {
    const std::vector<Raster> rasters = set.rasters();
    std::vector<Raster> back = rasters;
    Blobs ours(rasters), theirs(rasters);
    Times mine, other;
    double mb = 0;
    for (const Raster &r : rasters)
        mb += double(r.values.size()) / 1e6;
    for (int k = 0; k < (mb < 3 ? 5 * rounds : rounds); k++) {
        one_round(set, rasters, ours_encode, ours_decode, back, mine, ours);
        one_round(set, rasters, theirs_encode, theirs_decode, back, other, theirs);
    }
    check_blobs(rasters, ours, set.error);
    check_blobs(rasters, theirs, set.error);
    std::printf("| %s | %.0f | %.0f | %.2f | %.0f | %.0f | %.2f | %zu | %zu | %.4f |\n", set.name.c_str(),
                mb / mine.encode, mb / other.encode, other.encode / mine.encode, mb / mine.decode, mb / other.decode,
                other.decode / mine.decode, ours.total(), theirs.total(), double(ours.total()) / double(theirs.total()));
    std::fflush(stdout);
    mean.add(mine, other);
}

} // namespace

int main(int count, char **words) {
    int rounds = count > 1 ? std::atoi(words[1]) : 5;
    std::string word = count > 2 ? words[2] : "";
    std::printf("| raster | encode MB/s | Esri's | ratio | decode MB/s | Esri's | ratio | bytes | Esri's | ratio |\n");
    std::printf("|---|---|---|---|---|---|---|---|---|---|\n");
    std::vector<std::pair<std::string, Mean>> means;
    Mean whole;
    for (const Family &family : all_families()) {
        Mean mean;
        for (const Set &set : family.sets)
            if (set.name.find(word) != std::string::npos)
                run(set, rounds < 1 ? 1 : rounds, mean);
        means.emplace_back(family.name, mean);
        whole.add(mean);
    }
    for (const auto &[name, mean] : means)
        mean.print(name);
    whole.print("all sets");
    return 0;
}
