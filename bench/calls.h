// The library's calls as the benchmarks time them, which end the program with 1 where a call fails.
#ifndef CALLS_H
#define CALLS_H

#include "sets.h"
#include <cstdio>
#include <cstdlib>
#include <ctime>

[[noreturn]] inline void fail(const std::string &why) {
    std::fprintf(stderr, "bench: %s\n", why.c_str());
    std::exit(1);
}

// The processor time of this program so far, its threads together.
inline double seconds() {
    timespec now;
    clock_gettime(CLOCK_PROCESS_CPUTIME_ID, &now);
    return double(now.tv_sec) + double(now.tv_nsec) / 1e9;
}

// A size that no blob of the raster passes, and some more.
inline size_t room_for(const Raster &r) { return futskheri_greatest_size(r.kind, r.rows, r.cols, r.depth) + 1000; }

inline size_t ours_encode(const Raster &r, uint32_t version, uint32_t error, uint8_t *out, size_t room) {
    uint64_t size = 0;
    uint32_t status = futskheri_encode(r.kind, r.rows, r.cols, r.depth, version, error, r.values.data(), r.values.size(),
                                       r.mask.data(), r.is_masked ? r.mask.size() : 0, out, room, &size);
    if (status != FUTSKHERI_OK)
        fail("futskheri_encode answers " + std::to_string(status));
    return size;
}

inline void ours_decode(const uint8_t *blob, size_t size, Raster &out) {
    futskheri_fault fault{};
    uint32_t status = futskheri_decode_over(blob, size, out.values.data(), out.values.size(), out.mask.data(),
                                            out.mask.size(), &fault);
    if (status != FUTSKHERI_OK)
        fail("futskheri_decode_over answers " + std::to_string(status) + ", reason " + std::to_string(fault.reason));
}

#endif
