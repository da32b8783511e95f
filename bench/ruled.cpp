// Lists by house rules: with tables of 3 and of 64 rows beside the bold hint that has the same list, the count and the reading of
// the table alone; all days of the calendar beside a plain loop that writes the same pairs, memset and memcpy of as many bytes.
#include <algorithm>
#include <cstring>
#include <memory>
#include <string>
#include <vector>

#include "measure.h"
#include "ordered.h"

// Calls that callgrind collects, as it does ours: not inlined, by name.
extern "C" {
__attribute__((noinline)) int64_t plain_pairs(int64_t *to, int64_t first, int64_t count) {
    for (int64_t i = 0; i < count; i++)
        to[2 * i] = first + i, to[2 * i + 1] = 0;
    return count;
}

__attribute__((noinline)) int64_t plain_memset(int64_t *to, int byte, size_t bytes) {
    std::memset(to, byte, bytes);
    return (int64_t)bytes / 16;
}

__attribute__((noinline)) int64_t plain_memcpy(int64_t *to, const int64_t *from, size_t bytes) {
    std::memcpy(to, from, bytes);
    return (int64_t)bytes / 16;
}
}

namespace {

constexpr int64_t DAYS = 3652059, CALLS = 256;

std::vector<int64_t> lent(ORDERED_LENT_RULED_MOST), other(ORDERED_LENT_RULED_MOST);

// Lengths to `days` by the unit and step, in so many rows that are alike but for their lengths; two more for the longer ones.
std::string table_of(int rows, int64_t days, const std::string &unit, int64_t step) {
    std::string table = "from to unit step\n";
    const int64_t each = (days + 1) / (rows - 2);
    for (int64_t i = 0; i < rows; i++) {
        const int64_t from = i < rows - 1 ? i * each : 2 * days;
        const int64_t to = i < rows - 2 ? from + each - 1 : i < rows - 1 ? 2 * days - 1 : DAYS - 1;
        table += std::to_string(from) + " " + std::to_string(to) + " " + unit + " " + std::to_string(step) + "\n";
    }
    return table;
}

const uint8_t *bytes_of(const std::string &text) { return (const uint8_t *)text.data(); }

// So many calls of the same list: what is measured is the call.
Side repeated(const std::string &name, std::function<ordered_number()> call, bool alike = true) {
    return {name, loop(std::make_shared<const std::vector<int>>(CALLS), [=](int) { return (uint64_t)call().value; }), alike};
}

// A list of dates that a bold hint has too, from 2021-01-01 on, by a table: its call, the hint's, the count's and the reading's.
void short_list(Table &table, int rows, const std::string &unit, int64_t step, int64_t kind, int64_t days, int64_t n) {
    const int64_t start = ordered_day_number(2021, 1, 1).value, end = start + days;
    const auto text = std::make_shared<const std::string>(table_of(rows, days, unit, step));
    const auto ruled = [=] {
        return ordered_ticks_ruled(kind, start, 0, end, 0, 0, bytes_of(*text), text->size(), lent.data(), lent.size());
    };
    const auto bold = [=] { return ordered_ticks_bold(kind, start, 0, end, 0, 0, n, other.data(), ORDERED_LENT_MOST); };
    const auto count = [=] {
        return ordered_count_ruled(kind, start, 0, end, 0, 0, bytes_of(*text), text->size(), lent.size());
    };
    const auto read = [=] { return ordered_rules(bytes_of(*text), text->size()); };
    const ordered_number a = ruled(), b = bold();
    const std::string title = "ticks_ruled, " + std::to_string(a.value) + " by " + unit + ", " + std::to_string(rows)
        + " rows of " + std::to_string(text->size()) + " bytes | " + std::to_string(kind);
    if (a.status || b.status || a.value != b.value || !std::equal(lent.begin(), lent.begin() + 2 * a.value, other.begin()))
        return table.fail(title, "refused, or the hint has another list");
    if (read().status || read().value != rows)
        return table.fail(title, "another count of rows");
    table.row(title, CALLS, {repeated("ordered", ruled), repeated("ticks_bold", bold), repeated("count_ruled", count),
                             repeated("rules", read, false)});
}

// Every day of the calendar: 56 MiB of pairs.
void all_days(Table &table) {
    static const std::string text = "from to unit step\n0 3652058 day 1\n";
    const size_t bytes = lent.size() * sizeof lent[0];
    const auto once = [](const std::string &name, std::function<int64_t()> call) {
        return Side{name, [=] { return (uint64_t)call(); }};
    };
    const auto ruled = [] {
        return ordered_ticks_ruled(1, 1, 0, DAYS, 0, 0, bytes_of(text), text.size(), lent.data(), lent.size()).value;
    };
    const std::string title = "ticks_ruled, all days | 1";
    plain_pairs(other.data(), 1, DAYS);
    if (ruled() != DAYS || lent != other)
        return table.fail(title, "another list");
    table.row(title, 1, {once("ordered", ruled), once("plain loop", [] { return plain_pairs(lent.data(), 1, DAYS); }),
                         once("memset", [=] { return plain_memset(lent.data(), 1, bytes); }),
                         once("memcpy", [=] { return plain_memcpy(lent.data(), other.data(), bytes); })});
}

} // namespace

int main(int, char **argv) {
    Table table(argv[1], argv[2]);
    for (int rows : {3, 64}) {
        short_list(table, rows, "day", 7, ORDERED_KIND_DATE, 182, 26);
        short_list(table, rows, "month", 1, ORDERED_KIND_MONTH, 364, 12);
        short_list(table, rows, "year", 1, ORDERED_KIND_YEAR, 10957, 40);
    }
    all_days(table);
    return table.end();
}
