// igraph: igraph_maxflow_value, which leaves out what igraph_maxflow adds to write the flow down.
#include <igraph/igraph.h>

#include "network.hpp"

extern "C" int max_flow(const Job *job, int backward) {
    const Network net = network_of(*job, backward);
    igraph_vector_int_t edges;
    igraph_vector_int_init(&edges, 2 * net.arcs.size());
    igraph_integer_t i = 0;
    for (const auto &arc : net.arcs) {
        VECTOR(edges)[i++] = arc.first;
        VECTOR(edges)[i++] = arc.second;
    }
    igraph_t graph;
    igraph_create(&graph, &edges, net.nodes, IGRAPH_DIRECTED);
    igraph_real_t value = 0;
    igraph_maxflow_value(&graph, &value, net.source, net.sink, nullptr, nullptr);
    igraph_destroy(&graph);
    igraph_vector_int_destroy(&edges);
    return static_cast<int>(value);
}
