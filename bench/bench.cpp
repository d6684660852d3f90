// One run that measures both programs on the same lists and sheets, one after the other, and prints ratios: the proved program, called as a
// static library, over the same algorithm in C++ at -O3. Parsing and sorting are part of a build on both sides, checking the lines part of
// an import. A figure that misses its bar is marked with "missed".
#include "baseline.hpp"
#include <algorithm>
#include <chrono>
#include <cstdio>
#include <cstdlib>
#include <fstream>
#include <iterator>
#include <random>
#include <string>
#include <vector>

extern "C" {
uint64_t ladlepine_build(const uint8_t *list, size_t bytes, uint32_t degree);
uint64_t ladlepine_rescore(const uint8_t *list, size_t bytes, uint32_t degree, uint64_t cluster, int32_t weight, uint8_t state, uint32_t times);
uint64_t ladlepine_import(const uint8_t *sheet, size_t bytes, uint8_t *room, size_t room_bytes);
}

namespace {

constexpr double BUILD_BAR = 1.5, RESCORE_BAR = 1.2, IMPORT_BAR = 1.5;

// The largest sheet: 32 lines of 128 marks, and as many clusters as a list may have.
constexpr size_t MOST_BYTES = 32 * 129, MOST_RECORDS = 128;

using Bytes = std::vector<uint8_t>;

[[noreturn]] void stop(const std::string &why) {
    std::fprintf(stderr, "%s\n", why.c_str());
    std::exit(1);
}

Bytes read(const std::string &path) {
    std::ifstream in(path, std::ios::binary);
    if (!in) stop("can't read " + path);
    return {std::istreambuf_iterator<char>(in), {}};
}

uint64_t plain_build(const Bytes &list, uint32_t degree) {
    Table t;
    baseline_build(list.data(), list.size(), degree, t);
    return baseline_digest(t);
}

template <class Work> double microseconds(Work work) {
    const auto start = std::chrono::steady_clock::now();
    work();
    return std::chrono::duration<double, std::micro>(std::chrono::steady_clock::now() - start).count();
}

// As many turns as take about two milliseconds, at least one.
template <class Work> int turns_for(Work work) { return std::max(1, int(2000 / std::max(0.01, microseconds(work)))); }

struct Spread {
    double least, middle, most;
};

Spread spread(std::vector<double> v) {
    std::sort(v.begin(), v.end());
    return {v.front(), v[v.size() / 2], v.back()};
}

std::string name_of(const std::string &path) { return path.substr(path.rfind('/') + 1); }

volatile uint64_t sink;

// What both programs took, the least of the repeats, and their ratio over the repeats.
struct Pair {
    double ours, theirs;
    Spread ratio;
};

template <class Ours, class Theirs> Pair side_by_side(Ours ours, Theirs theirs, int turns, int repeats) {
    std::vector<double> ratios, a, b;
    for (int k = 0; k < repeats; k++) {
        const double x = microseconds([&] { for (int i = 0; i < turns; i++) ours(); }) / turns;
        const double y = microseconds([&] { for (int i = 0; i < turns; i++) theirs(); }) / turns;
        a.push_back(x);
        b.push_back(y);
        ratios.push_back(x / y);
    }
    return {spread(a).least, spread(b).least, spread(ratios)};
}

// One list at one degree bound.
struct Line {
    Pair build;
    double rescore_over_build;
    uint64_t tuples;
};

// The single taxon that lies in most rows.
size_t widest(const Table &t) {
    size_t worst = 0, most = 0;
    for (size_t i = 0; i < t.rows; i++) {
        if ((t.clusters[i] & (t.clusters[i] - 1)) != 0) continue;
        size_t rows = 0;
        for (size_t j = 0; j < t.rows; j++) rows += (t.clusters[j] & t.clusters[i]) == t.clusters[i];
        if (rows > most) most = rows, worst = i;
    }
    return worst;
}

// The digest after rescorings of row i to a weight and the same state: `times` by the proved program from the list, one by the C++ program
// from the table.
uint64_t rescored(const Bytes &list, uint32_t degree, const Table &t, size_t i, int32_t weight, uint32_t times) {
    return ladlepine_rescore(list.data(), list.size(), degree, t.clusters[i], weight, t.states[i], times);
}

uint64_t plain_rescored(Table t, size_t i, int32_t weight) {
    if (baseline_rescore(t, t.clusters[i], weight, t.states[i]) != 0) stop("a rescoring is refused");
    return baseline_digest(t);
}

Line measure(const Bytes &list, uint32_t degree, int repeats) {
    Table t;
    if (baseline_build(list.data(), list.size(), degree, t) != 0) stop("a list is refused");
    if (ladlepine_build(list.data(), list.size(), degree) != baseline_digest(t)) stop("the two programs build different tables");
    const size_t worst = widest(t);
    const int32_t weight = t.weights[worst], other = t.states[worst] == 0 ? 0 : weight < 0 ? weight + 1 : weight - 1;
    if (rescored(list, degree, t, worst, other, 1) != plain_rescored(t, worst, other)) stop("the two programs rescore to different tables");
    const auto ours = [&] { sink = ladlepine_build(list.data(), list.size(), degree); };
    const auto theirs = [&] { sink = plain_build(list, degree); };
    const int turns = turns_for(theirs);
    const Pair build = side_by_side(ours, theirs, turns, repeats);
    // a rescoring and a build side by side in each repeat, so that a machine that changes its pace changes both
    const uint32_t times = uint32_t(std::max(4, turns / 4));
    std::vector<double> rescores;
    for (int k = 0; k < repeats; k++) {
        const double builds = microseconds([&] { for (uint32_t i = 0; i < times; i++) ours(); });
        const double none = microseconds([&] { sink = rescored(list, degree, t, worst, weight, 0); });
        const double all = microseconds([&] { sink = rescored(list, degree, t, worst, weight, times); });
        rescores.push_back((all - none) / builds);
    }
    return {build, spread(rescores).middle, baseline_tuples(t)};
}

// How a build grows with its rows: the first 16, 32, 64 and 128 records of a list.
void print_growth(const std::string &path, int repeats) {
    const Bytes list = read(path);
    std::printf("\ngrowth: the first records of %s, microseconds for a build by the proved program\n%6s", name_of(path).c_str(), "rows");
    for (uint32_t degree = 3; degree <= 5; degree++) std::printf(" %9s%u", "d = ", degree);
    for (size_t rows = 16; rows <= 128; rows *= 2) {
        const Bytes part(list.begin(), list.begin() + std::ptrdiff_t(std::min(rows * 12, list.size())));
        std::printf("\n%6zu", part.size() / 12);
        for (uint32_t degree = 3; degree <= 5; degree++) std::printf(" %10.2f", measure(part, degree, repeats).build.ours);
    }
    std::printf("\n");
}

// ---- sheets

// A gel of a random tree: each column is one of its inner clusters with bits flipped at 6 %, and one mark in 500 can't be read.
Bytes simulated(size_t lines, size_t columns) {
    std::mt19937 random(1);
    std::vector<uint32_t> parts, inner;
    for (size_t i = 0; i < lines; i++) parts.push_back(uint32_t{1} << i);
    while (parts.size() > 1) {
        std::swap(parts[random() % parts.size()], parts.back());
        const uint32_t last = parts.back();
        parts.pop_back();
        uint32_t &other = parts[random() % parts.size()];
        other |= last;
        inner.push_back(other);
    }
    Bytes sheet(lines * (columns + 1), '\n');
    for (size_t j = 0; j < columns; j++) {
        const uint32_t cluster = inner[random() % inner.size()];
        for (size_t i = 0; i < lines; i++) {
            const bool bit = (cluster >> i & 1) != (random() % 100 < 6), unread = random() % 500 == 0;
            sheet[i * (columns + 1) + j] = unread ? '?' : bit ? '1' : '0';
        }
    }
    return sheet;
}

// What an import writes into a room of so many bytes, every byte of it, and how many records it tells, by both programs.
uint64_t same_import(const Bytes &sheet, size_t room_bytes) {
    Bytes room(room_bytes, 0xAA), other = room;
    Import import;
    baseline_import(sheet.data(), sheet.size(), other.data(), other.size(), import);
    const uint64_t told = ladlepine_import(sheet.data(), sheet.size(), room.data(), room.size());
    if (told != import.told || room != other) stop("the two programs import differently");
    return told;
}

// Whether the sheet, in one line of the table, misses the bar.
bool print_import(const std::string &name, const Bytes &sheet, int repeats) {
    const uint64_t told = same_import(sheet, 12 * MOST_RECORDS);
    if (told == 0) stop("a sheet is refused");
    // and where a sheet is refused: its last line has no end, or the room is too short
    same_import({sheet.begin(), sheet.end() - 1}, 12 * MOST_RECORDS);
    same_import(sheet, 12 * told - 1);
    Bytes room(12 * MOST_RECORDS);
    Import import;
    const auto ours = [&] { sink = ladlepine_import(sheet.data(), sheet.size(), room.data(), room.size()); };
    const auto theirs = [&] { sink = uint64_t(baseline_import(sheet.data(), sheet.size(), room.data(), room.size(), import)); };
    const Pair p = side_by_side(ours, theirs, turns_for(theirs), repeats);
    const bool slow = sheet.size() == MOST_BYTES && told == MOST_RECORDS && p.ratio.middle > IMPORT_BAR;
    const size_t lines = size_t(std::count(sheet.begin(), sheet.end(), '\n')), marks = sheet.size() - lines;
    std::printf("%-16s %5zu %8zu %9zu %10.2f %12.2f %7.2f %6.2f to %5.2f %12.2f%s\n", name.c_str(), lines, marks / lines, size_t(told), p.ours, p.theirs, p.ratio.middle, p.ratio.least,
                p.ratio.most, double(marks) / p.ours, slow ? "  missed" : "");
    return slow;
}

}  // namespace

// The words after the lists, past a "--", are sheets.
int main(int count, char **words) {
    const std::vector<std::string> paths(words + std::min(count, 2), words + count);
    const auto sheets = std::find(paths.begin(), paths.end(), "--");
    if (sheets == paths.begin()) {
        std::fprintf(stderr, "usage: bench REPEATS LIST.. [-- SHEET..]\n");
        return 2;
    }
    const int repeats = std::atoi(words[1]);
    std::printf("%-16s %2s %12s %12s %7s %15s %12s %18s\n", "list", "d", "proved us", "C++ us", "ratio", "spread", "tuples/us", "rescoring/build");
    int missed = 0;
    for (auto path = paths.begin(); path != sheets; path++) {
        const Bytes list = read(*path);
        for (uint32_t degree = 3; degree <= 5; degree++) {
            const Line l = measure(list, degree, repeats);
            const Spread ratio = l.build.ratio;
            const bool slow = ratio.middle > BUILD_BAR, heavy = list.size() >= 64 * 12 && l.rescore_over_build > RESCORE_BAR;
            missed += slow + heavy;
            std::printf("%-16s %2u %12.2f %12.2f %7.2f %6.2f to %5.2f %12.2f %18.2f%s\n", name_of(*path).c_str(), degree, l.build.ours, l.build.theirs, ratio.middle, ratio.least,
                        ratio.most, double(l.tuples) / l.build.ours, l.rescore_over_build, slow || heavy ? "  missed" : "");
        }
    }
    print_growth(paths.front(), repeats);
    std::printf("\n%-16s %5s %8s %9s %10s %12s %7s %15s %12s\n", "sheet", "lines", "columns", "clusters", "proved us", "C++ us", "ratio", "spread", "marks/us");
    for (auto path = sheets; path != paths.end(); path++)
        if (path != sheets) missed += print_import(name_of(*path), read(*path), repeats);
    missed += print_import("simulated", simulated(16, 128), repeats);
    std::printf("bars: a build at most %.1f times the C++ program's, a rescoring at most %.1f builds on lists of 64 rows or more, an import of the largest sheet at most %.1f times the C++ program's; %d missed\n",
                BUILD_BAR, RESCORE_BAR, IMPORT_BAR, missed);
}
