// Every operation of the C interface that has an axis beside plotters' own, for each kind, from the same raw numbers in one
// process. All answers and every number of a list are compared before anything is measured. Plotters has no weeks: kind 8
// stands beside our own kind 1.
#include <cstring>
#include <functional>
#include <string>
#include <type_traits>
#include <vector>

#include "measure.h"
#include "ordered.h"
#include "plotters.h"
#include "requests.h"

namespace {

const std::vector<int> ALL = {1, 2, 3, 4, 5, 6, 7, 8}, UNMAPPED = {1, 2, 3, 4, 5, 6, 8}, WITH_PERIOD = {4, 7},
                       INDEXED = {1, 2, 3, 5, 6, 8};

// What a case of an operation is called, and its requests.
struct Case {
    std::string name;
    int requests;
    std::function<Request(int kind)> draw;
};

template <class T> T type_of(T Request::*);
template <auto Field> using Type = decltype(type_of(Field));

// What is summed of an answer: the status and, if that is all, the number.
uint64_t told(const ordered_number &a) { return a.status + a.value; }
uint64_t told(const ordered_pixel &a) { return a.status + a.pixel; }
uint64_t told(const ordered_period &a) { return a.status + a.nanoseconds; }
template <class Answer> uint64_t told(const Answer &a) { return a.status; }

// What plotters answers for an export's struct: of a pixel status and number alone, since it has no flags.
template <class Answer> struct InPlotters { using Numbers = Answer; };
template <> struct InPlotters<ordered_pixel> { using Numbers = ordered_number; };

template <class Ours, class Theirs> bool same(const Request &r, bool lists, Ours ours, Theirs theirs) {
    static int64_t listed[ROOM];
    const auto a = ours(r);
    const size_t size = lists ? 2 * told(a) * sizeof listed[0] : 0;
    std::memcpy(listed, lent, size);
    std::memset(lent, 0, size);
    const auto b = theirs(r);
    // 0 answered, -1 none: a refused request would measure the questions alone. A pixel's flags stand behind what plotters has.
    return a.status <= 0 && !std::memcmp(&a, &b, sizeof b) && !std::memcmp(listed, lent, size);
}

// All values of an axis. The cursor is asked from the raw numbers each time; plotters' iterator keeps its coord.
ordered_number values_walk(ORDERED_AXIS) {
    ordered_step step = {};
    for (int64_t count = 0;; count++) {
        step = ordered_values(kind, start_head, start_tail, end_head, end_tail, end_excluded, step.next);
        if (step.status)
            return {0, count};
    }
}

// An operation on weeks, and on dates from the same numbers; only pixels are the same on both.
template <auto... Field, class Answer>
void week_row(Table &table, const std::string &name, const Case &of,
              Answer (*export_of)(ORDERED_AXIS, Type<Field>...)) {
    const std::string title = name + of.name + " | " + std::to_string(ORDERED_KIND_WEEK);
    const auto on = [=](int kind) {
        return [=](const Request &r) {
            return export_of(kind, r.start_head, r.start_tail, r.end_head, r.end_tail, INCLUDED, r.*Field...);
        };
    };
    const auto requests = std::make_shared<std::vector<Request>>();
    generator.seed(SEED);
    for (int i = 0; i < of.requests; i++) {
        requests->push_back(of.draw(ORDERED_KIND_WEEK));
        if (on(ORDERED_KIND_WEEK)(requests->back()).status > 0 || on(ORDERED_KIND_DATE)(requests->back()).status > 0)
            return table.fail(title, "refused");
    }
    const auto side = [&](const char *beside, int kind, bool alike) {
        const auto call = on(kind);
        return Side{beside, loop(Inputs<Request>(requests), [=](const Request &r) { return told(call(r)); }), alike};
    };
    table.row(title, requests->size(),
              {side("ordered", ORDERED_KIND_WEEK, true), side("kind 1", ORDERED_KIND_DATE, name == "map")});
}

// An operation on a kind: after the axis it takes the fields, in their order.
template <auto... Field, class Answer>
void row(Table &table, const std::string &name, int kind, const Case &of,
         Answer (*export_of)(ORDERED_AXIS, Type<Field>...)) {
    using Numbers = typename InPlotters<Answer>::Numbers (*)(int64_t, int64_t, int64_t, int64_t, Type<Field>...);
    using Own = ordered_number (*)(int64_t, int64_t, int64_t, int64_t, Type<Field>...);
    constexpr bool lists = (std::is_same_v<Type<Field>, int64_t *> || ...);
    const auto numbers = (Numbers)plotters_find(name.c_str(), kind, true);
    const auto own = (Own)plotters_find(name.c_str(), kind, false);
    const auto ours = [=](const Request &r) {
        return export_of(kind, r.start_head, r.start_tail, r.end_head, r.end_tail, INCLUDED, r.*Field...);
    };
    const auto theirs = [](auto function) {
        return [=](const Request &r) {
            return function(r.start_head, r.start_tail, r.end_head, r.end_tail, r.*Field...);
        };
    };

    const std::string title = name + of.name + " | " + std::to_string(kind);
    if (!numbers || !own)
        return table.fail(title, "not in plotters.rs");
    const auto requests = std::make_shared<std::vector<Request>>();
    generator.seed(SEED);
    for (int i = 0; i < of.requests; i++) {
        requests->push_back(of.draw(kind));
        if (!same(requests->back(), lists, ours, theirs(numbers)))
            return table.fail(title, "another answer, or refused");
    }
    const auto side = [&](const char *beside, auto call) {
        return Side{beside, loop(Inputs<Request>(requests), [=](const Request &r) { return told(call(r)); })};
    };
    std::vector<Side> sides = {side("ordered", ours), side("plotters", theirs(own))};
    // The values that plotters answers are chrono's: here they are written out in numbers too. Lists stay as they are.
    if ((void *)own != (void *)numbers && !lists)
        sides.push_back(side("plotters, numbers out", theirs(numbers)));
    table.row(title, requests->size(), sides);
}

template <auto... Field, class Export>
void rows(Table &table, const std::string &name, const std::vector<int> &kinds, const std::vector<Case> &cases,
          Export export_of) {
    if (!table.wants(name))
        return;
    for (const Case &of : cases)
        for (int kind : kinds)
            if (kind == ORDERED_KIND_WEEK)
                week_row<Field...>(table, name, of, export_of);
            else
                row<Field...>(table, name, kind, of, export_of);
}

Case segments(const char *name, int64_t segment) {
    return {name, 2048, [segment](int kind) {
                Request r = chart(kind);
                r.segment = segment;
                return r;
            }};
}

// Of long lists fewer.
Case lists(int64_t n) {
    return {", N " + std::to_string(n), n <= 10 ? 2048 : n <= 100 ? 512 : 32, [n](int kind) { return listing(kind, n); }};
}

} // namespace

int main(int, char **argv) {
    using R = Request;
    Table table(argv[1], argv[2]);
    const std::vector<Case> charts = {{"", 2048, chart}}, hints = {lists(10), lists(100), lists(MOST)},
                            parts = {segments(", exact", 1), segments(", centre", 2), segments(", last", 3)};

    rows<&R::low, &R::high, &R::head, &R::tail>(table, "map", ALL, charts, ordered_map);
    rows<&R::low, &R::high, &R::pixel>(table, "unmap", UNMAPPED, charts, ordered_unmap);
    rows<&R::n>(table, "period_per_point", WITH_PERIOD, hints, ordered_period_per_point);
    rows<&R::n, &R::lent, &R::room>(table, "ticks_bold", ALL, hints, ordered_ticks_bold);
    rows<&R::bold, &R::n, &R::lent, &R::room>(table, "ticks_light", ALL, hints, ordered_ticks_light);
    rows<&R::n, &R::room>(table, "count_bold", ALL, hints, ordered_count_bold);
    rows<&R::bold, &R::n, &R::room>(table, "count_light", ALL, hints, ordered_count_light);

    rows<>(table, "size", INDEXED, charts, ordered_size);
    rows<&R::head, &R::tail>(table, "index_of", INDEXED, charts, ordered_index_of);
    rows<&R::index>(table, "from_index", INDEXED, charts, ordered_from_index);
    rows<&R::head, &R::tail>(table, "next", INDEXED, charts, ordered_next);
    rows<&R::head, &R::tail>(table, "previous", INDEXED, charts, ordered_previous);
    rows<&R::index>(table, "values", INDEXED, charts, ordered_values);
    rows<>(table, "values_walk", INDEXED, {{"", 128, chart}}, values_walk);

    rows<&R::low, &R::high, &R::segment, &R::head, &R::tail>(table, "segment_map", INDEXED, parts, ordered_segment_map);
    rows<&R::n, &R::lent, &R::room>(table, "segment_ticks_bold", INDEXED, hints, ordered_segment_ticks_bold);
    rows<&R::bold, &R::n, &R::lent, &R::room>(table, "segment_ticks_light", INDEXED, hints, ordered_segment_ticks_light);
    rows<>(table, "segment_size", INDEXED, charts, ordered_segment_size);
    rows<&R::segment, &R::head, &R::tail>(table, "segment_index_of", INDEXED, parts, ordered_segment_index_of);
    rows<&R::index>(table, "segment_from_index", INDEXED, charts, ordered_segment_from_index);
    return table.end();
}
