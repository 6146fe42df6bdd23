// The works that are measured: patterns with their texts, and the flag that is known beforehand.
#ifndef WORKS_H
#define WORKS_H

#include <cstdint>
#include <cstdlib>
#include <string>
#include <vector>

namespace {

using std::string;
using std::vector;

struct Work {
    string id, name, says;  // says: what is shown of the pattern and text
    string pattern, text;
    int flag;  // whether another tree exists, known beforehand
    string anchored = "^(" + pattern + ")$";
};

constexpr size_t text_limit = 4096;

struct Dice {  // the same row of numbers in each run
    uint32_t state = 20231;
    uint32_t below(uint32_t n) {
        state = state * 1664525u + 1013904223u;
        return (state >> 8) % n;
    }
};

// Rows of a nightly dump: a table, how many records, and what became of it. As many as fit.
string rows(size_t n, Dice dice = {}) {
    static const char *const tables[] = {"customers", "orders",  "invoices", "stock",  "prices",  "ledger",
                                         "audit",     "returns", "receipts", "labels", "batches", "carriers"};
    string s;
    for (;;) {
        string row = tables[dice.below(12)];
        row += " " + std::to_string(dice.below(dice.below(3) == 0 ? 90 : 900000)) + (dice.below(9) == 0 ? " held\n" : " ok\n");
        if (s.size() + row.size() > n) return s;
        s += row;
    }
}

string repeated(const string &part, size_t n) {
    string s;
    while (s.size() + part.size() <= n) s += part;
    return s;
}

string fields(size_t n, Dice dice = {}) {
    string s;
    for (size_t i = 0; i < n; i++) s += i == n / 3 || i == 2 * n / 3 ? ';' : static_cast<char>("abcdefgh 0123\n"[dice.below(14)]);
    return s;
}

string words(size_t n, Dice dice = {}) {
    string s;
    for (;;) {
        string word;
        bool number = dice.below(3) == 0;
        for (uint32_t k = 1 + dice.below(9); k > 0; k--) word += static_cast<char>(number ? '0' + dice.below(10) : 'a' + dice.below(26));
        word += " ";
        if (s.size() + word.size() > n) return s;
        s += word;
    }
}

vector<Work> works() {
    return {
        {"a", "rows", "`(([a-z]+) ([0-9]+) (ok|held)LF)*` on rows of a nightly dump; LF is byte 10", "(([a-z]+) ([0-9]+) (ok|held)\n)*", rows(4096), 0},
        {"b", "nested", "`(a*)*` on letters a", "(a*)*", string(4096, 'a'), 1},
        {"c", "abcd", "`((ab|a)(c|bcd)(d*))*` on `abcd` again and again", "((ab|a)(c|bcd)(d*))*", repeated("abcd", 4096), 1},
        {"d", "fields", "`(.*);(.*);(.*)` on a text with two semicolons", "(.*);(.*);(.*)", fields(3900), 0},
        {"e", "words", "`(([a-z]+|[0-9]+) )*` on words and numbers", "(([a-z]+|[0-9]+) )*", words(4096), 0},
        {"f", "line", "`([a-z]+) ([0-9]+)` on `orders 42`", "([a-z]+) ([0-9]+)", "orders 42", 0},
    };
}

// The same two works on shorter texts.
inline vector<Work> longer_texts() {
    vector<Work> out;
    for (size_t n = 256; n <= text_limit; n *= 2) {
        out.push_back({"a", "rows", "", works()[0].pattern, rows(n), 0});
        out.push_back({"c", "abcd", "", works()[2].pattern, repeated("abcd", n), 1});
    }
    return out;
}

// A pattern of exactly `bytes` bytes, bytes / 8 positions: a turn reads that many letters. The texts are whole turns of each of these.
inline vector<Work> longer_patterns() {
    vector<Work> out;
    string letters = repeated("abcdefghijklmnopqrstuvwxyz", text_limit + 26).substr(0, text_limit);
    for (size_t bytes = 8; bytes <= 512; bytes *= 2) {
        string p = "(";
        for (size_t k = 1; k < bytes / 8; k++) p += "[a-z0-9]";
        p += "[a-z])*";
        if (p.size() != bytes) abort();
        out.push_back({"long", "turns", "", p, letters, 0});
        out.push_back({"short", "turns", "", p, letters.substr(0, 64), 0});
    }
    return out;
}

}  // namespace

#endif
