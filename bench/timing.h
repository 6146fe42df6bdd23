// How a call is timed: so many in a row that the clock is fine enough, in rounds over the whole of a run.
#ifndef TIMING_H
#define TIMING_H

#include <time.h>

#include <algorithm>
#include <cstdio>
#include <string>
#include <vector>

namespace {

using std::string;
using std::vector;

// The thread's own time, so that others at work on the machine disturb less.
double now_ns() {
    timespec t;
    clock_gettime(CLOCK_THREAD_CPUTIME_ID, &t);
    return static_cast<double>(t.tv_sec) * 1e9 + static_cast<double>(t.tv_nsec);
}

size_t failures = 0;  // calls that were measured and failed

// A call answers what went wrong, or an empty text.
template <class Call>
double turns_ns(const Call &call, size_t calls) {
    double start = now_ns();
    for (size_t i = 0; i < calls; i++) failures += call() != "";
    return now_ns() - start;
}

struct Measured {
    string wrong;  // what a call answered before anything was measured; then it is not measured
    size_t calls = 1;
    vector<double> ns;  // per call, one for each round, in order once all are made
    double at(double part) const { return ns[static_cast<size_t>(part * static_cast<double>(ns.size() - 1) + 0.5)]; }

    // Finds how many calls take long enough.
    template <class Call>
    void prepare(const Call &call, double least_ns) {
        double took = 0;
        while ((took = turns_ns(call, calls)) < least_ns) {
            double more = took > 0 ? least_ns / took * 1.2 : 10;
            calls = static_cast<size_t>(static_cast<double>(calls) * std::min(10.0, std::max(more, 1.1))) + 1;
        }
    }

    template <class Call>
    void round(const Call &call) {
        if (wrong == "") ns.push_back(turns_ns(call, calls) / static_cast<double>(calls));
    }
};

// Median, least and most in ns for a call, and calls in a round; or what was wrong.
void print(const Measured &m) {
    if (m.wrong != "")
        printf("-\t-\t-\t-\t%s\n", m.wrong.c_str());
    else
        printf("%.1f\t%.1f\t%.1f\t%zu\t\n", m.at(0.5), m.at(0), m.at(1), m.calls);
}

// Calls for so long, to be looked at from outside. Sets `ns` to what a call took, and answers how many were made.
template <class Call>
size_t call_for(const Call &call, double seconds, size_t at_once, double &ns) {
    size_t calls = 0;
    double spent = 0;
    while (spent < seconds * 1e9) {
        spent += turns_ns(call, at_once);
        calls += at_once;
    }
    ns = spent / static_cast<double>(calls);
    return calls;
}

}  // namespace

#endif
