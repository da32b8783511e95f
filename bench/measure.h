// A table of comparisons: each side's median time per call and, as callgrind counts them, its instructions per call.
// With --count a program only makes the calls, for callgrind; bench/run hands the counts to the next start in a file.
#pragma once

#include <algorithm>
#include <chrono>
#include <cstdint>
#include <cstdio>
#include <cstring>
#include <fstream>
#include <functional>
#include <map>
#include <memory>
#include <string>
#include <vector>

#include <valgrind/callgrind.h>

// A pass makes the calls on all inputs once, and sums their answers.
struct Side {
    std::string name;
    std::function<uint64_t()> pass;
    bool alike = true; // it answers the same
    std::vector<double> times = {};
};

template <class Input> using Inputs = std::shared_ptr<const std::vector<Input>>;

// The loop is a template, so that each side's call stands in it directly.
template <class Input, class Call> auto loop(const Inputs<Input> &inputs, Call call) {
    return [inputs, call] {
        uint64_t sum = 0;
        for (const Input &input : *inputs)
            sum += call(input);
        return sum;
    };
}

class Table {
public:
    // The program's arguments: --count or the file of counts, and how the names of the wanted rows begin.
    Table(const char *mode, const char *names) : counting(!std::strcmp(mode, "--count")), wanted(names) {
        std::ifstream file(mode);
        double count;
        for (std::string title; file >> count && std::getline(file >> std::ws, title);)
            counts[title] = count;
    }

    const bool counting;

    bool wants(const std::string &operation) const { return operation.compare(0, wanted.size(), wanted) == 0; }

    void fail(const std::string &title, const std::string &why) {
        std::fprintf(stderr, "%s: %s\n", title.c_str(), why.c_str());
        failed = true;
    }

    // A row is an operation on a kind; its first side is ours. The sums of those that answer alike must be equal.
    void row(const std::string &title, size_t calls, const std::vector<Side> &sides) {
        for (const Side &side : sides)
            if (side.alike && side.pass() != sides[0].pass())
                fail(title, "another sum: " + side.name);
        rows.push_back({title, calls, sides});
    }

    // Counts or times, and prints. For main to return: 1 if a row failed, or there is none.
    int end() {
        if (counting)
            for (const Row &row : rows)
                count(row);
        else
            time();
        if (rows.empty())
            fail(wanted, "no such operation, or it failed");
        return failed;
    }

private:
    struct Row {
        std::string title;
        size_t calls;
        std::vector<Side> sides;
    };

    std::string wanted;
    std::map<std::string, double> counts;
    std::vector<Row> rows;
    bool failed = false;

    // Callgrind's dump carries the calls, the row and the side.
    static void count(const Row &row) {
        for (const Side &side : row.sides) {
            const std::string title = std::to_string(row.calls) + " " + row.title + " | " + side.name;
            CALLGRIND_ZERO_STATS;
            side.pass();
            CALLGRIND_DUMP_STATS_AT(title.c_str());
        }
    }

    // In sweeps over all rows, some passes of each: slow times of the machine are then a part of every row's passes and of
    // every side's, and the medians leave them out.
    void time() {
        constexpr int SWEEPS = 41;
        constexpr double LEAST = 2e6;
        for (int sweep = 0; sweep < SWEEPS; sweep++)
            for (Row &row : rows)
                for (double spent = 0; spent < LEAST;)
                    for (Side &side : row.sides)
                        spent += timed(side);
        for (Row &row : rows)
            print(row);
    }

    static double timed(Side &side) {
        const auto start = std::chrono::steady_clock::now();
        side.pass();
        const std::chrono::duration<double, std::nano> spent = std::chrono::steady_clock::now() - start;
        side.times.push_back(spent.count());
        return spent.count();
    }

    // A line for each side beside ours.
    void print(Row &row) {
        auto time = [&](Side &side) {
            const auto middle = side.times.begin() + side.times.size() / 2;
            std::nth_element(side.times.begin(), middle, side.times.end());
            return *middle / row.calls;
        };
        auto instructions = [&](const Side &side) {
            const auto found = counts.find(row.title + " | " + side.name);
            if (found == counts.end())
                fail(row.title, "not counted: " + side.name);
            return found == counts.end() ? 0 : found->second;
        };
        Side &ours = row.sides[0];
        for (size_t i = 1; i < row.sides.size(); i++) {
            Side &other = row.sides[i];
            std::printf("| %s | %s |", row.title.c_str(), other.name.c_str());
            print(time(ours), time(other));
            print(instructions(ours), instructions(other));
            std::printf("\n");
        }
    }

    static void print(double ours, double other) {
        for (double number : {ours, other})
            std::printf(" %.*f |", number < 100 ? 1 : 0, number);
        std::printf(" %.2f |", ours / other);
    }
};
