// Our inner mapping with a ready scale beside plotters' map with a ready coord and value, for each kind, on the requests of
// operations.cpp.
#include <cstdint>
#include <string>
#include <vector>

#include "measure.h"
#include "plotters.h"
#include "ready.h"
#include "requests.h"

namespace {

constexpr int REQUESTS = 2048;

// Room for chrono's values and plotters' coords; plotters.rs checks that they fit.
struct alignas(8) Coord {
    unsigned char bytes[32];
};
struct alignas(8) Value {
    unsigned char bytes[16];
};

// The functions of plotters.rs.
using MakeCoord = void (*)(int64_t, int64_t, int64_t, int64_t, Coord *);
using MakeValue = void (*)(int64_t, int64_t, Value *);
using Map = int32_t (*)(const Coord *, const Value *, int32_t, int32_t);

struct Theirs {
    Coord coord;
    Value value;
    int32_t low, high;
};

struct Ours {
    int64_t limits[2];
    double floats[2];
    bool fits;
    int64_t span, axis[6], value[2];
};

Ours ours_of(int kind, const Request &r) {
    Ours o = {{r.low, r.high},
              {},
              false,
              0,
              {kind, r.start_head, r.start_tail, r.end_head, r.end_tail, INCLUDED},
              {r.head, r.tail}};
    const ready_scale s = ready_scale_of(o.axis, o.limits);
    o.floats[0] = s.width, o.floats[1] = s.total, o.fits = s.fits, o.span = s.span;
    return o;
}

Theirs theirs_of(int kind, const Request &r) {
    const auto make_coord = (MakeCoord)plotters_find("make_coord", kind, true);
    const auto make_value = (MakeValue)plotters_find("make_value", kind, true);
    Theirs t = {{}, {}, (int32_t)r.low, (int32_t)r.high};
    make_coord(r.start_head, r.start_tail, r.end_head, r.end_tail, &t.coord);
    make_value(r.head, r.tail, &t.value);
    return t;
}

void row(Table &table, int kind) {
    const auto ours = std::make_shared<std::vector<Ours>>();
    const auto theirs = std::make_shared<std::vector<Theirs>>();
    generator.seed(SEED);
    for (int i = 0; i < REQUESTS; i++) {
        const Request r = chart(kind);
        ours->push_back(ours_of(kind, r));
        theirs->push_back(theirs_of(kind, r));
    }
    const auto other = (Map)plotters_find("ready_map", kind, true);
    const auto our_pass = loop(Inputs<Ours>(ours), [=](const Ours &r) {
        return ready_map(r.limits, r.floats, r.fits, r.span, r.axis, r.value);
    });
    const auto their_pass = loop(Inputs<Theirs>(theirs), [=](const Theirs &r) {
        return other(&r.coord, &r.value, r.low, r.high);
    });
    table.row("map, all ready | " + std::to_string(kind), REQUESTS, {{"ordered", our_pass}, {"plotters", their_pass}});
}

} // namespace

int main(int, char **argv) {
    Table table(argv[1], argv[2]);
    for (int kind = 1; kind <= 7; kind++)
        row(table, kind);
    return table.end();
}
