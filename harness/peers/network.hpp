// The network of a job for the peers: every call as a node, and every cell at every step from 0 to the latest deadline as
// two nodes, joined by an arc, so that one cart can stand there. All capacities are 1. A call comes after its cell at each
// step at which it is met. A bay's cell after its step is closed: no arc comes to its nodes or leaves them. Carts that no
// call gets are left out: that they can be kept on the floor is known without a flow.
#pragma once
#include <utility>
#include <vector>

struct Job {
    int cells, tracks, carts, calls;
    const int *from, *to;            // tracks
    const int *starts;               // carts, as many as calls or more
    const int *lifts, *deadlines;    // calls
    const int *bays;                 // 1 where a call is a bay, else 0
};

struct Network {
    int nodes, source, sink;
    std::vector<std::pair<int, int>> arcs;    // by tail
};

// From the carts to the calls, or the other way round. Nothing but its call comes after a bay's node.
inline Network network_of(const Job &job, bool backward) {
    int last = 0, met = 0;
    for (int q = 0; q < job.calls; q++) {
        if (job.deadlines[q] > last) last = job.deadlines[q];
        met += job.bays[q] ? 1 : job.deadlines[q] + 1;
    }
    const int n = job.cells, k = n * (last + 1);
    std::vector<int> call(n, -1), cart(n, 0), shut(n, last + 1);    // the step of the bay
    for (int q = 0; q < job.calls; q++) {
        call[job.lifts[q]] = q;
        if (job.bays[q]) shut[job.lifts[q]] = job.deadlines[q];
    }
    for (int i = 0; i < job.carts; i++) cart[job.starts[i]] = 1;
    // Cells within a step of each cell, itself first.
    std::vector<int> row(n + 1, 0), near(n + 2 * job.tracks), filled(n, 1);
    for (int c = 0; c < n; c++) row[c + 1] = 1;
    for (int i = 0; i < job.tracks; i++) row[job.from[i] + 1]++, row[job.to[i] + 1]++;
    for (int c = 0; c < n; c++) row[c + 1] += row[c], near[row[c]] = c;
    for (int i = 0; i < job.tracks; i++) {
        const int a = job.from[i], b = job.to[i];
        near[row[a] + filled[a]++] = b;
        near[row[b] + filled[b]++] = a;
    }
    const int calls = 2 * k + 2;
    Network net{calls + job.calls, 2 * k, 2 * k + 1, {}};
    auto &arcs = net.arcs;
    arcs.reserve(k + last * near.size() + met + job.carts + job.calls);
    // Node 2v is where a cart comes in, 2v + 1 where it goes on; backward the other way round.
    for (int t = 0, v = 0; t <= last; t++)
        for (int c = 0; c < n; c++, v++) {
            if (t > shut[c]) continue;
            arcs.emplace_back(2 * v, 2 * v + 1);
            if (!backward) {
                const int q = call[c];
                if (q >= 0 && (job.bays[q] ? t == shut[c] : t <= job.deadlines[q])) arcs.emplace_back(2 * v + 1, calls + q);
                if (t < last && t < shut[c])
                    for (int i = row[c]; i < row[c + 1]; i++)
                        if (t < shut[near[i]]) arcs.emplace_back(2 * v + 1, 2 * ((t + 1) * n + near[i]));
            } else if (t > 0) {
                for (int i = row[c]; i < row[c + 1]; i++)
                    if (t - 1 < shut[near[i]]) arcs.emplace_back(2 * v + 1, 2 * ((t - 1) * n + near[i]));
            } else if (cart[c]) {
                arcs.emplace_back(2 * v + 1, net.sink);
            }
        }
    if (!backward)
        for (int c = 0; c < n; c++)
            if (cart[c]) arcs.emplace_back(net.source, 2 * c);
    if (backward)
        for (int q = 0; q < job.calls; q++) arcs.emplace_back(net.source, calls + q);
    for (int q = 0; q < job.calls; q++) {
        if (!backward) arcs.emplace_back(calls + q, net.sink);
        if (backward)
            for (int t = job.bays[q] ? job.deadlines[q] : 0; t <= job.deadlines[q]; t++)
                arcs.emplace_back(calls + q, 2 * (t * n + job.lifts[q]));
    }
    return net;
}
