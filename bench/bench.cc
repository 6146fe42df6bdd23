// Measures our calls beside RE2, PCRE2 with JIT and TRE: pattern and text in, answer out, everything made for a call thrown away after it.
// Prints lines of fields parted by tabs, which report.py turns into tables and plots. bench/run builds and runs this.
#include <algorithm>
#include <cstdio>
#include <cstdlib>
#include <cstring>
#include <string>
#include <vector>

#include "calls.h"
#include "timing.h"
#include "works.h"

namespace {

bool wrong_answer = false;  // of ours

// Engines on a work, and the tables that show what they took.
struct Job {
    vector<const char *> kinds;
    Work work;
    const Engine *engines;
    size_t count;
    double least_ns;  // of a round of one engine
    vector<Measured> measured;
};

// A call of one engine of a job.
auto call_of(const Job &j, size_t k) {
    return [&j, k] { return j.engines[k].call(j.work); };
}

// Sees that each engine answers, and finds how many calls take long enough. The first engine is ours.
void prepare(Job &j) {
    j.measured.resize(j.count);
    for (size_t k = 0; k < j.count; k++) {
        Measured &m = j.measured[k];
        m.wrong = j.engines[k].check(j.work);
        if (m.wrong != "") {
            if (k == 0 && m.wrong != not_built) {
                fprintf(stderr, "bench: OUR CALL FAILS on %s, %zu bytes against %zu: %s\n", j.work.name.c_str(), j.work.text.size(),
                        j.work.pattern.size(), m.wrong.c_str());
                wrong_answer = true;
            }
            continue;
        }
        m.prepare(call_of(j, k), j.least_ns);
    }
}

// Every engine on every work in turn, then all of it again: a slow minute of the machine falls on all figures, so that those of different
// tables can be compared.
void measure(vector<Job> &jobs, int rounds) {
    for (Job &j : jobs) prepare(j);
    for (int r = 0; r < rounds; r++)
        for (Job &j : jobs)
            for (size_t k = 0; k < j.count; k++) j.measured[k].round(call_of(j, k));
    for (Job &j : jobs)
        for (Measured &m : j.measured) std::sort(m.ns.begin(), m.ns.end());
}

// What is measured. The longest of the growing texts are the works themselves, so they are measured once and shown in both tables.
vector<Job> all_jobs(double least_ns) {
    vector<Job> jobs;
    for (const Work &w : works()) {
        jobs.push_back({{"work"}, w, tree_engines, 4, least_ns, {}});
        jobs.push_back({{"verdict"}, w, verdict_engines, 2, least_ns, {}});
    }
    for (const Work &w : longer_texts()) {
        auto same = std::find_if(jobs.begin(), jobs.end(), [&](const Job &j) { return j.work.text == w.text && j.work.pattern == w.pattern; });
        if (same == jobs.end())
            jobs.push_back({{"text"}, w, tree_engines, 4, least_ns / 2, {}});
        else
            same->kinds.push_back("text");
    }
    for (const Work &w : longer_patterns()) jobs.push_back({{"pattern"}, w, tree_engines, 4, least_ns / 2, {}});
    return jobs;
}

// kind, work, pattern bytes, text bytes, engine, then what was measured
void print(const char *kind, const Job &j) {
    for (size_t k = 0; k < j.count; k++) {
        printf("%s\t%s\t%zu\t%zu\t%s\t", kind, j.work.id.c_str(), j.work.pattern.size(), j.work.text.size(), j.engines[k].name);
        print(j.measured[k]);
    }
}

// The lines of one table after another, each in the order in which the texts and patterns grow.
void print_all(const vector<Job> &jobs) {
    for (const char *kind : {"work", "verdict", "text", "pattern"})
        for (const Job &j : jobs)
            for (const char *k : j.kinds)
                if (strcmp(k, kind) == 0) print(kind, j);
}

int profile(const string &which, const string &engine, double seconds) {
    for (const Work &w : works()) {
        if (w.id != which && w.name != which) continue;
        vector<Engine> all(std::begin(tree_engines), std::end(tree_engines));
        all.insert(all.end(), std::begin(verdict_engines), std::end(verdict_engines));
        for (const Engine &e : all) {
            if (engine != e.name) continue;
            string wrong = e.check(w);
            if (wrong != "") {
                fprintf(stderr, "bench: %s on %s: %s\n", e.name, w.name.c_str(), wrong.c_str());
                return 1;
            }
            double ns = 0;
            size_t calls = call_for([&] { return e.call(w); }, seconds, 100, ns);
            printf("%s on %s: %zu calls, %.1f ns for a call, %.2f ns for a byte\n", e.name, w.name.c_str(), calls, ns, ns / static_cast<double>(w.text.size()));
            return failures != 0;
        }
        fprintf(stderr, "bench: no engine %s; there are ours, re2, pcre2, tre, verdict, re2-yes-no\n", engine.c_str());
        return 2;
    }
    fprintf(stderr, "bench: no work %s; there are a rows, b nested, c abcd, d fields, e words, f line\n", which.c_str());
    return 2;
}

}  // namespace

// bench ROUNDS MILLISECONDS, or bench --profile WORK ENGINE SECONDS
int main(int argc, char **argv) {
    if (argc == 5 && string(argv[1]) == "--profile") return profile(argv[2], argv[3], atof(argv[4]));
    if (argc != 3) return 2;
    int rounds = std::max(1, atoi(argv[1]));
    char version[64] = "";
    pcre2_config(PCRE2_CONFIG_VERSION, version);
    printf("version\tpcre2\t%s\nversion\ttre\t%s\n", version, tre_version());
    for (const Work &w : works()) printf("about\t%s\t%s\t%s\t%d\n", w.id.c_str(), w.name.c_str(), w.says.c_str(), w.flag);
    vector<Job> jobs = all_jobs(atof(argv[2]) * 1e6);
    measure(jobs, rounds);
    print_all(jobs);
    if (failures != 0) fprintf(stderr, "bench: %zu calls that were measured failed\n", failures);
    return failures != 0 || wrong_answer;
}
