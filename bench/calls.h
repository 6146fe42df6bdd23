// The calls that are measured, ours and the peers'. Each takes a work and answers what went wrong, or an empty text.
//
// Built with HAVE_OURS where our archive is linked.
#ifndef CALLS_H
#define CALLS_H

#define PCRE2_CODE_UNIT_WIDTH 8
#include <pcre2.h>
#include <re2/re2.h>
#include <tre/tre.h>

#include <cstdint>
#include <string>
#include <vector>

#include "dimmhalt.h"
#include "works.h"

namespace {

const char not_built[] = "not built";

#ifdef HAVE_OURS

uint64_t cells[DIMMHALT_MOST_CELLS];
uint16_t tree[DIMMHALT_MOST_ROOM];
uint64_t figures[DIMMHALT_FIRST_TREE_FIGURES];

const uint8_t *bytes_of(const string &s) { return reinterpret_cast<const uint8_t *>(s.data()); }

string ours(const Work &w) {
    uint32_t r = dimmhalt_first_tree(bytes_of(w.pattern), w.pattern.size(), bytes_of(w.text), w.text.size(), cells, DIMMHALT_CELLS(w.text.size()),
                                     tree, DIMMHALT_MOST_ROOM, figures, DIMMHALT_FIRST_TREE_FIGURES);
    if (r != DIMMHALT_ANSWERED) return "answer " + std::to_string(r);
    if (static_cast<int>(figures[1]) != w.flag) return "wrong flag";
    return "";
}

// Looks at the whole answer once, before anything is measured.
string ours_checked(const Work &w) {
    for (uint64_t &c : cells) c = 77;
    string wrong = ours(w);
    if (wrong != "") return wrong;
    for (size_t i = 0; i < DIMMHALT_MOST_CELLS; i++)
        if (cells[i] != (i < DIMMHALT_CELLS(w.text.size()) ? 0u : 77u)) return "wrong cells";
    string read;
    vector<int> opened;
    for (uint64_t i = 0; i < figures[0]; i++) {
        int t = tree[i];
        if (t >= DIMMHALT_BYTE(0)) {
            read += static_cast<char>(t - DIMMHALT_BYTE(0));
        } else if (t < DIMMHALT_CLOSES(0)) {
            opened.push_back(t);
        } else {
            if (opened.empty() || DIMMHALT_CLOSES(opened.back()) != t) return "wrong tree";
            opened.pop_back();
        }
    }
    if (!opened.empty() || read != w.text) return "wrong tree";
    return "";
}

string our_verdict(const Work &w) {
    uint32_t r = dimmhalt_verdict(bytes_of(w.pattern), w.pattern.size(), bytes_of(w.text), w.text.size());
    return r == (w.flag ? DIMMHALT_SEVERAL_TREES : DIMMHALT_ONE_TREE) ? "" : "answer " + std::to_string(r);
}

#else

string ours(const Work &) { return not_built; }
string ours_checked(const Work &) { return not_built; }
string our_verdict(const Work &) { return not_built; }

#endif

RE2::Options byte_options() {
    RE2::Options o;
    o.set_encoding(RE2::Options::EncodingLatin1);
    o.set_dot_nl(true);
    o.set_log_errors(false);
    return o;
}

// Compile, then one match of the whole text, with all captures.
string re2_captures(const Work &w) {
    static const RE2::Options options = byte_options();
    RE2 re(w.pattern, options);
    if (!re.ok()) return "does not compile: " + re.error();
    re2::StringPiece got[65];
    if (!re.Match(w.text, 0, w.text.size(), RE2::ANCHOR_BOTH, got, 1 + re.NumberOfCapturingGroups())) return "no match";
    return got[0].size() == w.text.size() ? "" : "matched only a part";
}

// Compile without captures, then one match of the whole text: yes or no.
string re2_yes_no(const Work &w) {
    static const RE2::Options options = [] {
        RE2::Options o = byte_options();
        o.set_never_capture(true);
        return o;
    }();
    RE2 re(w.pattern, options);
    if (!re.ok()) return "does not compile: " + re.error();
    return re.Match(w.text, 0, w.text.size(), RE2::ANCHOR_BOTH, nullptr, 0) ? "" : "no match";
}

string pcre2_says(int code) {
    PCRE2_UCHAR said[200];
    pcre2_get_error_message(code, said, sizeof said);
    return reinterpret_cast<const char *>(said);
}

// Compile, JIT-compile, one match of the whole text with all captures. The stack of the JIT code is made once, outside the calls.
string pcre2_jit(const Work &w) {
    static pcre2_match_context *const context = [] {
        pcre2_match_context *c = pcre2_match_context_create(nullptr);
        pcre2_jit_stack_assign(c, nullptr, pcre2_jit_stack_create(64 << 10, 8 << 20, nullptr));
        return c;
    }();
    int error = 0;
    PCRE2_SIZE at = 0;
    pcre2_code *code = pcre2_compile(reinterpret_cast<PCRE2_SPTR>(w.pattern.data()), w.pattern.size(),
                                     PCRE2_DOTALL | PCRE2_ANCHORED | PCRE2_ENDANCHORED | PCRE2_DOLLAR_ENDONLY, &error, &at, nullptr);
    if (code == nullptr) return "does not compile: " + pcre2_says(error);
    string wrong;
    error = pcre2_jit_compile(code, PCRE2_JIT_COMPLETE);
    if (error != 0) {
        wrong = "no JIT: " + pcre2_says(error);
    } else {
        pcre2_match_data *data = pcre2_match_data_create_from_pattern(code, nullptr);
        int got = pcre2_match(code, reinterpret_cast<PCRE2_SPTR>(w.text.data()), w.text.size(), 0, 0, data, context);
        if (got < 0)
            wrong = pcre2_says(got);
        else if (pcre2_get_ovector_pointer(data)[1] != w.text.size())
            wrong = "matched only a part";
        pcre2_match_data_free(data);
    }
    pcre2_code_free(code);
    return wrong;
}

// Compile, then one match with all captures. TRE has no option for the whole text, so the pattern is put between anchors; in the C locale
// it reads bytes, and without REG_NEWLINE a dot reads byte 10 and the anchors are the ends of the text.
string tre_captures(const Work &w) {
    regex_t re;
    int error = tre_regncomp(&re, w.anchored.data(), w.anchored.size(), REG_EXTENDED);
    string wrong;
    if (error != 0) {
        char said[200];
        tre_regerror(error, &re, said, sizeof said);
        return string("does not compile: ") + said;
    }
    regmatch_t got[66];
    error = tre_regnexec(&re, w.text.data(), w.text.size(), re.re_nsub + 1, got, 0);
    if (error != 0) {
        char said[200];
        tre_regerror(error, &re, said, sizeof said);
        wrong = said;
    } else if (got[0].rm_so != 0 || static_cast<size_t>(got[0].rm_eo) != w.text.size()) {
        wrong = "matched only a part";
    }
    tre_regfree(&re);
    return wrong;
}

struct Engine {
    const char *name;
    string (*call)(const Work &);
    string (*check)(const Work &);
};

const Engine tree_engines[] = {
    {"ours", ours, ours_checked}, {"re2", re2_captures, re2_captures}, {"pcre2", pcre2_jit, pcre2_jit}, {"tre", tre_captures, tre_captures}};
const Engine verdict_engines[] = {{"verdict", our_verdict, our_verdict}, {"re2-yes-no", re2_yes_no, re2_yes_no}};

}  // namespace

#endif
