// LEMON: Preflow on a SmartDigraph with a map of capacities, as its manual has it.
#include <lemon/preflow.h>
#include <lemon/smart_graph.h>

#include "network.hpp"

using Graph = lemon::SmartDigraph;

extern "C" int max_flow(const Job *job, int backward) {
    const Network net = network_of(*job, backward);
    Graph graph;
    graph.reserveNode(net.nodes);
    graph.reserveArc(net.arcs.size());
    for (int i = 0; i < net.nodes; i++) graph.addNode();
    for (const auto &[from, to] : net.arcs) graph.addArc(graph.nodeFromId(from), graph.nodeFromId(to));
    Graph::ArcMap<int> capacity(graph, 1);
    lemon::Preflow<Graph> flow(graph, capacity, graph.nodeFromId(net.source), graph.nodeFromId(net.sink));
    flow.run();
    return flow.flowValue();
}
