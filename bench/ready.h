// What ready.rattle offers: the scale of an axis and its limits, and the pixel of a value with it. Nothing is asked: the ends,
// the limits and the value must be accepted ones.
// It stands in an archive of its own, so that no call is inlined into the loop.
#pragma once

#include <cstdint>

struct ready_scale {
    double width;
    bool fits;
    int64_t span;
    double total;
};

extern "C" {
// axis: its six numbers in order; limits: low, high.
ready_scale ready_scale_of(const int64_t axis[6], const int64_t limits[2]);

// floats: width, total; fits and span: the scale's; value: its numbers in order.
int64_t ready_map(const int64_t limits[2], const double floats[2], bool fits, int64_t span, const int64_t axis[6],
                  const int64_t value[2]);
}
