// Measures the sheet of a night beside a call for the first tree of each of its reports, on the same bytes and with the same lent memory.
// Prints lines of fields parted by tabs, which report.py turns into a table. bench/run builds and runs this.
#include <algorithm>
#include <cstdio>
#include <cstdlib>
#include <fstream>
#include <iterator>
#include <sstream>
#include <string>
#include <vector>

#include "dimmhalt.h"
#include "nights.h"
#include "timing.h"

namespace {

uint64_t cells[DIMMHALT_MOST_CELLS];
uint16_t tree[DIMMHALT_MOST_ROOM];  // holds every tree
dimmhalt_record table[DIMMHALT_MARK_LIMIT];
uint8_t sheet[DIMMHALT_SHEET_BYTES];
uint64_t figures[DIMMHALT_READ_FIGURES];

const uint8_t *bytes_of(const string &s) { return reinterpret_cast<const uint8_t *>(s.data()); }

string answered(uint32_t r) { return r == DIMMHALT_ANSWERED ? "" : "answer " + std::to_string(r); }

string one_sheet(const Night &n) {
    return answered(dimmhalt_sheet(bytes_of(n.pattern), n.pattern.size(), bytes_of(n.row), n.row.size(), n.lengths.data(), n.lengths.size(),
                                   n.last.data(), n.last.size(), cells, DIMMHALT_MOST_CELLS, tree, DIMMHALT_MOST_ROOM, table, n.last.size(), sheet,
                                   DIMMHALT_SHEET_BYTES, figures, DIMMHALT_SHEET_FIGURES));
}

string first_tree(const Night &n, size_t at, size_t length) {
    return answered(dimmhalt_first_tree(bytes_of(n.pattern), n.pattern.size(), bytes_of(n.row) + at, length, cells, DIMMHALT_MOST_CELLS, tree,
                                        DIMMHALT_MOST_ROOM, figures, DIMMHALT_FIRST_TREE_FIGURES));
}

string many_calls(const Night &n) {
    size_t at = 0;
    for (uint64_t length : n.lengths) {
        string wrong = first_tree(n, at, length);
        if (wrong != "") return wrong;
        at += length;
    }
    return "";
}

struct Way {
    const char *name;
    string (*call)(const Night &);
};
const Way ways[] = {{"sheet", one_sheet}, {"calls", many_calls}};

// ---- before anything is measured

// Finds how many marks the pattern has, and makes last night's turns for them.
string read_pattern(Night &n) {
    string wrong = answered(dimmhalt_read(bytes_of(n.pattern), n.pattern.size(), figures, DIMMHALT_READ_FIGURES));
    Dice dice;
    for (size_t h = 0; wrong == "" && h < figures[2]; h++) n.last.push_back(dice.below(DIMMHALT_LAST_LIMIT));
    return wrong;
}

// Adds up the turns of each mark over all reports, each of which has to have a tree.
string turns_of(const Night &n, vector<uint64_t> &turns) {
    size_t at = 0;
    for (uint64_t length : n.lengths) {
        string wrong = first_tree(n, at, length);
        if (wrong != "") return wrong;
        const size_t tokens = figures[0];
        for (size_t h = 1; h <= turns.size(); h++) {
            wrong = answered(dimmhalt_turns(tree, tokens, h, figures, DIMMHALT_TURNS_FIGURES));
            if (wrong != "") return wrong;
            turns[h - 1] += figures[0];
        }
        at += length;
    }
    return "";
}

// The sheet as it has to be: all reports have 0, and turns and changes are sums of dimmhalt_turns. Bytes and longest turns are the table's.
string expected_sheet(const Night &n, const vector<uint64_t> &turns) {
    std::ostringstream s;
    s << n.lengths.size() << '\n';
    for (size_t i = 0; i < n.lengths.size(); i++) s << "0\n";
    s << turns.size() << '\n';
    for (size_t h = 0; h < turns.size(); h++) s << turns[h] << '\n' << table[h].bytes << '\n' << table[h].longest << '\n';
    s << turns.size() << '\n';
    for (size_t h = 0; h < turns.size(); h++) {
        const int64_t change = static_cast<int64_t>(turns[h]) - static_cast<int64_t>(n.last[h]);
        s << (change > 0 ? "+" : "") << change << '\n';
    }
    return s.str();
}

string check(Night &n) {
    string wrong = read_pattern(n);
    vector<uint64_t> turns(n.last.size());
    if (wrong == "") wrong = turns_of(n, turns);
    if (wrong == "") wrong = one_sheet(n);
    if (wrong != "") return wrong;
    for (size_t h = 0; h < turns.size(); h++)
        if (table[h].turns != turns[h]) return "wrong table";
    return string(sheet, sheet + figures[0]) == expected_sheet(n, turns) ? "" : "wrong sheet";
}

// ---- measuring

struct Job {
    Night night;
    vector<Measured> measured;
};

// Both ways on every night in turn, then all of it again, as the works are measured. Answers whether every night is in order.
bool measure(vector<Job> &jobs, int rounds, double least_ns) {
    auto call = [](const Job &j, const Way &w) { return [&j, &w] { return w.call(j.night); }; };
    for (Job &j : jobs) {
        string wrong = check(j.night);
        if (wrong != "") {
            fprintf(stderr, "bench: OUR CALLS FAIL on the night %s of %zu bytes: %s\n", j.night.name.c_str(), j.night.row.size(), wrong.c_str());
            return false;
        }
        j.measured.resize(std::size(ways));
        for (size_t k = 0; k < std::size(ways); k++) j.measured[k].prepare(call(j, ways[k]), least_ns);
    }
    for (int r = 0; r < rounds; r++)
        for (Job &j : jobs)
            for (size_t k = 0; k < std::size(ways); k++) j.measured[k].round(call(j, ways[k]));
    for (Job &j : jobs)
        for (Measured &m : j.measured) std::sort(m.ns.begin(), m.ns.end());
    return true;
}

// night, whose pattern, its marks, bytes of all reports, way, then what was measured
void print_all(const vector<Job> &jobs) {
    for (const Job &j : jobs)
        for (size_t k = 0; k < std::size(ways); k++) {
            printf("night\t%s\t%zu\t%zu\t%s\t", j.night.id.c_str(), j.night.last.size(), j.night.row.size(), ways[k].name);
            print(j.measured[k]);
        }
}

// The example's night: `night` is that of the long reports, and `short-night` that of the short ones.
int profile(vector<Night> &all, const string &which, const string &name, double seconds) {
    Night &n = which == "short-night" ? all[all.size() / 2] : all[0];
    for (const Way &w : ways) {
        if (name != w.name) continue;
        string wrong = check(n);
        if (wrong != "") {
            fprintf(stderr, "bench: %s: %s\n", which.c_str(), wrong.c_str());
            return 1;
        }
        double ns = 0;
        size_t calls = call_for([&] { return w.call(n); }, seconds, 1, ns);
        printf("%s on %s of %zu reports: %zu times, %.3f ms for one, %.2f ns for a byte\n", w.name, which.c_str(), n.lengths.size(), calls, ns / 1e6,
               ns / static_cast<double>(n.row.size()));
        return failures != 0;
    }
    fprintf(stderr, "bench: no engine %s of a night; there are sheet and calls\n", name.c_str());
    return 2;
}

// What a file holds, without byte 10 at its end.
string pattern_in(const char *path) {
    std::ifstream file(path, std::ios::binary);
    string s{std::istreambuf_iterator<char>(file), {}};
    if (!s.empty() && s.back() == '\n') s.pop_back();
    return s;
}

}  // namespace

// nights EXAMPLE REPORTS ROUNDS MILLISECONDS, or nights EXAMPLE REPORTS --profile NIGHT ENGINE SECONDS
int main(int argc, char **argv) {
    if (argc != 5 && argc != 7) return 2;
    vector<Night> all = nights(pattern_in(argv[1]), static_cast<size_t>(std::max(1, atoi(argv[2]))));
    if (argc == 7) return profile(all, argv[4], argv[5], atof(argv[6]));
    vector<Job> jobs;
    for (const Night &n : all) {
        if (jobs.size() < all.size() / 2) printf("about\t%s\t%s\t%s\n", n.id.c_str(), n.name.c_str(), n.says.c_str());
        jobs.push_back({n, {}});
    }
    if (!measure(jobs, std::max(1, atoi(argv[3])), atof(argv[4]) * 1e6)) return 1;
    print_all(jobs);
    if (failures != 0) fprintf(stderr, "bench: %zu calls that were measured failed\n", failures);
    return failures != 0;
}
