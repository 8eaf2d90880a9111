// LEMON tuned by hand: Preflow on a StaticDigraph, the quickest of its graphs to build and to walk, with capacities that take no memory.
#include <lemon/maps.h>
#include <lemon/preflow.h>
#include <lemon/static_graph.h>

#include "network.hpp"

using Graph = lemon::StaticDigraph;
using Ones = lemon::ConstMap<Graph::Arc, lemon::Const<int, 1>>;

extern "C" int max_flow(const Job *job, int backward) {
    const Network net = network_of(*job, backward);
    Graph graph;
    graph.build(net.nodes, net.arcs.begin(), net.arcs.end());
    Ones ones;
    lemon::Preflow<Graph, Ones> flow(graph, ones, graph.node(net.source), graph.node(net.sink));
    flow.runMinCut();
    if (flow.flowValue() == job->calls) flow.startSecondPhase();    // paths need the flow, choke points only the cut
    return flow.flowValue();
}
