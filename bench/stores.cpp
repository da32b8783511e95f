// Calls that list the same 4,096 dates, a week apart, each alone under callgrind: on kind 1, and on the kinds over date-times
// that list dates; plotters' own beside them. bench/stores prints what was counted.
#include <cstdio>
#include <cstring>
#include <string>

#include <valgrind/callgrind.h>

#include "ordered.h"
#include "plotters.h"
#include "requests.h"

namespace {

// From noon of the day before to noon of the last: date_ceil and date_floor are the dates.
constexpr int64_t FIRST = 715510, LAST = FIRST + 7 * (MOST - 1), NOON = 12 * HOUR;

int64_t dates[ROOM];
bool failed = false;

void expect_dates(const std::string &title, ordered_number r) {
    if (r.status == 0 && r.value == MOST && !std::memcmp(lent, dates, sizeof lent))
        return;
    std::fprintf(stderr, "%s: another list\n", title.c_str());
    failed = true;
}

// What is done once, in the first call, is not counted.
template <class Call> ordered_number counted(const std::string &title, Call call) {
    call();
    std::memset(lent, 0, sizeof lent);
    CALLGRIND_ZERO_STATS;
    const ordered_number r = call();
    CALLGRIND_DUMP_STATS_AT(title.c_str());
    return r;
}

template <class Call> void ours(const std::string &title, Call call) { expect_dates(title, counted(title, call)); }

// Plotters' list stays in its own memory where it is counted; to be compared it is written out.
void plotters(int kind, int64_t start_head, int64_t start_tail, int64_t end_head, int64_t end_tail) {
    using List = ordered_number (*)(int64_t, int64_t, int64_t, int64_t, int64_t, int64_t *, size_t);
    const std::string title = "plotters, kind " + std::to_string(kind) + ", bold";
    const auto list = [=](bool numbers) {
        const auto own = (List)plotters_find("ticks_bold", kind, numbers);
        return [=] { return own(start_head, start_tail, end_head, end_tail, MOST, lent, ROOM); };
    };
    counted(title, list(false));
    expect_dates(title, list(true)());
}

} // namespace

int main() {
    for (int64_t i = 0; i < MOST; i++)
        dates[2 * i] = FIRST + 7 * i;
    ours("kind 1, bold", [] { return ordered_ticks_bold(1, FIRST, 0, LAST, 0, INCLUDED, MOST, lent, ROOM); });
    ours("kind 4, bold", [] { return ordered_ticks_bold(4, FIRST - 1, NOON, LAST, NOON, INCLUDED, MOST, lent, ROOM); });
    for (int kind : {4, 5, 6})
        ours("kind " + std::to_string(kind) + ", light", [kind] {
            return ordered_ticks_light(kind, FIRST - 1, NOON, LAST, NOON, INCLUDED, MOST, MOST, lent, ROOM);
        });
    plotters(1, FIRST, 0, LAST, 0);
    plotters(4, FIRST - 1, NOON, LAST, NOON);
    return failed;
}
