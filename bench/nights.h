// The nights that are measured: reports under one pattern, made with different numbers, all long or all short.
#ifndef NIGHTS_H
#define NIGHTS_H

#include <cstdint>
#include <cstdio>
#include <string>
#include <utility>
#include <vector>

#include "works.h"

namespace {

struct Night {
    string id, name, says;  // says: what is shown of the pattern and its reports
    string pattern;
    string row;  // the reports, one after another
    vector<uint64_t> lengths;
    vector<uint64_t> last;  // turns of last night, one number for each mark; made when the pattern is read
};

constexpr size_t long_report = text_limit, short_report = 60;
constexpr size_t lacking = 4;  // so many bytes a report may be shorter than asked for

// A dump in the form of examples/nightly.report, with as many rows as fit; a short one without the spaces that make its columns.
string dump(size_t n, Dice dice) {
    static const char *const tables[] = {"customers", "orders", "audit_log", "stock", "prices", "ledger", "returns", "labels", "batches", "mail"};
    const bool columns = n > 100;
    char line[80];
    auto put = [&line](int length) { return string(line, static_cast<size_t>(length)); };
    const uint32_t month = 1 + dice.below(12), day = 1 + dice.below(28), vault = dice.below(10);
    string s = put(snprintf(line, sizeof line, "DUMP 2025-%02u-%02u vault-%u\n", month, day, vault)), end = "END 0 tables\n";
    for (unsigned count = 1;; count++) {
        const char *table = tables[dice.below(10)];
        const uint32_t records = dice.below(dice.below(3) == 0 ? 10 : 9000);
        const bool skipped = dice.below(9) == 0;
        string row = put(snprintf(line, sizeof line, "%-*s %*u rows %*u MB %s\n", columns ? 9 : 0, table, columns ? 7 : 0, skipped ? 0 : records,
                                  columns ? 4 : 0, skipped ? 0 : records / 70, skipped ? "skipped" : "ok"));
        string last = put(snprintf(line, sizeof line, "END %u tables\n", count));
        if (s.size() + row.size() + last.size() > n) return s + end;
        s += row;
        end = last;
    }
}

using Make = string (*)(size_t, Dice);

// So many reports of n bytes, or nearly: each is made anew with other numbers until it is long enough.
Night night(const string &id, const string &name, const string &says, const string &pattern, Make make, size_t reports, size_t n) {
    Night made{id, name, says, pattern, "", {}, {}};
    Dice seeds;
    while (made.lengths.size() < reports) {
        string report = make(n, Dice{seeds.below(1u << 24)});
        if (report.size() + lacking < n) continue;
        made.row += report;
        made.lengths.push_back(report.size());
    }
    return made;
}

// The example of the product, and works whose texts are dumps, fields and words; first all of them long, then all short.
vector<Night> nights(const string &example, size_t reports) {
    vector<Night> out;
    const vector<Work> all = works();
    for (size_t n : {long_report, short_report}) {
        out.push_back(night("dump", "dump", "examples/nightly.pattern on dumps in the form of examples/nightly.report", example, dump, reports, n));
        for (auto [at, make] : {std::pair<size_t, Make>{0, rows}, {3, fields}, {4, words}})
            out.push_back(night(all[at].id, all[at].name, all[at].says, all[at].pattern, make, reports, n));
    }
    return out;
}

}  // namespace

#endif
