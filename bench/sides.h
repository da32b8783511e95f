// What the other sides offer: libstdc++ in sides.cpp, chrono in chrono.rs.
// Each stands in a file of its own, so that no call is inlined into the loop, as no call of the archive is.
#include <chrono>
#include <cstdint>

#include "ordered.h"

// libstdc++ over its own types, then over those of ordered.h; _ok: with ok() asked.
std::chrono::sys_days std_day_number(std::chrono::year_month_day date);
std::chrono::sys_days std_day_number_ok(std::chrono::year_month_day date);
ordered_number std_day_number_c(int64_t year, int64_t month, int64_t day);
ordered_number std_day_number_c_ok(int64_t year, int64_t month, int64_t day);
std::chrono::year_month_day std_date_of(std::chrono::sys_days day);
std::chrono::year_month_day std_date_of_ok(std::chrono::sys_days day);
ordered_date std_date_of_c(int64_t number);
ordered_date std_date_of_c_ok(int64_t number);

extern "C" {
struct chrono_date {
    int32_t year;
    uint32_t month, day;
};
struct chrono_week_date {
    int32_t year;
    uint32_t week, weekday;
};
int32_t chrono_day_number(int32_t year, uint32_t month, uint32_t day);
chrono_date chrono_date_of(int32_t number);
int32_t chrono_week_day_number(int32_t year, uint32_t week, uint32_t weekday);
chrono_week_date chrono_week_date_of(int32_t number);
}
