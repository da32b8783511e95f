// libstdc++'s year_month_day to sys_days and back, as functions that are never inlined.
// Where ok() is asked and says no, the answer is empty, as a refusal of the archive is.
#include "sides.h"

using namespace std::chrono;

#define APART [[gnu::noinline]]

constexpr int EPOCH = 719163; // 1970-01-01, from which sys_days count

APART sys_days std_day_number(year_month_day date) { return sys_days(date); }

APART sys_days std_day_number_ok(year_month_day date) { return date.ok() ? sys_days(date) : sys_days(); }

// The fields of year_month_day are narrower than an int64_t: nothing is asked of what is cut off here.
static year_month_day cut(int64_t y, int64_t m, int64_t d) {
    return {year((int)y), month((unsigned)m), day((unsigned)d)};
}

static ordered_number number(year_month_day date) { return {0, sys_days(date).time_since_epoch().count() + EPOCH}; }

APART ordered_number std_day_number_c(int64_t y, int64_t m, int64_t d) { return number(cut(y, m, d)); }

APART ordered_number std_day_number_c_ok(int64_t y, int64_t m, int64_t d) {
    year_month_day date = cut(y, m, d);
    return date.ok() ? number(date) : ordered_number{8, 0};
}

APART year_month_day std_date_of(sys_days day) { return year_month_day(day); }

APART year_month_day std_date_of_ok(sys_days day) {
    year_month_day date(day);
    return date.ok() ? date : year_month_day();
}

static year_month_day date_at(int64_t number) { return year_month_day(sys_days(days((int)number - EPOCH))); }

static ordered_date fields(year_month_day date) {
    return {0, (int)date.year(), (unsigned)date.month(), (unsigned)date.day()};
}

APART ordered_date std_date_of_c(int64_t number) { return fields(date_at(number)); }

APART ordered_date std_date_of_c_ok(int64_t number) {
    year_month_day date = date_at(number);
    return date.ok() ? fields(date) : ordered_date{8, 0, 0, 0};
}
