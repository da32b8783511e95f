// The calendar's exports beside chrono and libstdc++, in one process on the same inputs.
// libstdc++ over its own types and over ours, with and without ok(); it has no week dates, which stand beside our dates too.
#include <chrono>
#include <cstdint>
#include <random>
#include <vector>

#include "measure.h"
#include "ordered.h"
#include "sides.h"

namespace {

constexpr int LAST_DAY = 3652059, RANDOM = 1 << 16;

// As small as it can be, so that memory is no part of what is measured. Of a week date the week and the weekday.
struct Small {
    int16_t year;
    uint8_t month, day;
};

uint64_t packed(int64_t year, int64_t month, int64_t day) { return year * 512 + month * 32 + day; }

void day_number(Table &table, const char *title, const Inputs<Small> &dates) {
    using namespace std::chrono;
    auto own = [](Small s) { return year_month_day(year(s.year), month(s.month), day(s.day)); };
    auto sum = [](sys_days day) { return day.time_since_epoch().count() + 719163; };
    auto side = [&](const char *name, auto call) { return Side{name, loop(dates, call)}; };
    table.row(title, dates->size(), {
        side("ordered", [](Small s) { return ordered_day_number(s.year, s.month, s.day).value; }),
        side("chrono", [](Small s) { return chrono_day_number(s.year, s.month, s.day); }),
        side("libstdc++, its types", [=](Small s) { return sum(std_day_number(own(s))); }),
        side("libstdc++, its types, ok()", [=](Small s) { return sum(std_day_number_ok(own(s))); }),
        side("libstdc++, our types", [](Small s) { return std_day_number_c(s.year, s.month, s.day).value; }),
        side("libstdc++, our types, ok()", [](Small s) { return std_day_number_c_ok(s.year, s.month, s.day).value; }),
    });
}

void date_of(Table &table, const char *title, const Inputs<int32_t> &days) {
    using namespace std::chrono;
    auto own = [](int32_t n) { return sys_days(std::chrono::days(n - 719163)); };
    auto sum = [](year_month_day d) { return packed((int)d.year(), (unsigned)d.month(), (unsigned)d.day()); };
    auto fields = [](const auto &d) { return packed(d.year, d.month, d.day); };
    auto side = [&](const char *name, auto call) { return Side{name, loop(days, call)}; };
    table.row(title, days->size(), {
        side("ordered", [=](int32_t n) { return fields(ordered_date_of(n)); }),
        side("chrono", [=](int32_t n) { return fields(chrono_date_of(n)); }),
        side("libstdc++, its types", [=](int32_t n) { return sum(std_date_of(own(n))); }),
        side("libstdc++, its types, ok()", [=](int32_t n) { return sum(std_date_of_ok(own(n))); }),
        side("libstdc++, our types", [=](int32_t n) { return fields(std_date_of_c(n)); }),
        side("libstdc++, our types, ok()", [=](int32_t n) { return fields(std_date_of_c_ok(n)); }),
    });
}

void week_day_number(Table &table, const char *title, const Inputs<Small> &weeks, const Inputs<Small> &dates) {
    auto ours = [](Small s) { return ordered_week_day_number(s.year, s.month, s.day).value; };
    auto date = [](Small s) { return ordered_day_number(s.year, s.month, s.day).value; };
    auto chrono = [](Small s) { return chrono_week_day_number(s.year, s.month, s.day); };
    table.row(title, weeks->size(), {{"ordered", loop(weeks, ours)}, {"day_number", loop(dates, date)},
                                     {"chrono", loop(weeks, chrono)}});
}

void week_date_of(Table &table, const char *title, const Inputs<int32_t> &days) {
    auto fields = [](const auto &d) { return packed(d.year, d.week, d.weekday); };
    auto ours = [=](int32_t n) { return fields(ordered_week_date_of(n)); };
    auto date = [](int32_t n) { ordered_date d = ordered_date_of(n); return packed(d.year, d.month, d.day); };
    auto chrono = [=](int32_t n) { return fields(chrono_week_date_of(n)); };
    table.row(title, days->size(), {{"ordered", loop(days, ours)}, {"date_of", loop(days, date), false},
                                    {"chrono", loop(days, chrono)}});
}

Inputs<Small> week_dates_of(const Inputs<int32_t> &days) {
    std::vector<Small> all;
    for (int32_t n : *days) {
        ordered_week_date d = ordered_week_date_of(n);
        all.push_back({(int16_t)d.year, (uint8_t)d.week, (uint8_t)d.weekday});
    }
    return std::make_shared<std::vector<Small>>(all);
}

Inputs<Small> dates_of(const Inputs<int32_t> &days) {
    std::vector<Small> all;
    for (int32_t n : *days) {
        ordered_date d = ordered_date_of(n);
        all.push_back({(int16_t)d.year, (uint8_t)d.month, (uint8_t)d.day});
    }
    return std::make_shared<std::vector<Small>>(all);
}

} // namespace

int main(int, char **argv) {
    Table table(argv[1], argv[2]);
    const auto every = std::make_shared<std::vector<int32_t>>(), some = std::make_shared<std::vector<int32_t>>();
    std::mt19937 generator(20260101);
    // To count, every 61st day will do: callgrind is slow.
    for (int n = 1; n <= LAST_DAY; n += table.counting ? 61 : 1)
        every->push_back(n);
    for (int i = 0; i < RANDOM; i++)
        some->push_back(1 + (int32_t)(generator() % LAST_DAY));

    day_number(table, "day_number | in order", dates_of(every));
    day_number(table, "day_number | random", dates_of(some));
    date_of(table, "date_of | in order", every);
    date_of(table, "date_of | random", some);
    week_day_number(table, "week_day_number | in order", week_dates_of(every), dates_of(every));
    week_day_number(table, "week_day_number | random", week_dates_of(some), dates_of(some));
    week_date_of(table, "week_date_of | in order", every);
    week_date_of(table, "week_date_of | random", some);
    return table.end();
}
