// Boost: push_relabel_max_flow on a compressed_sparse_row_graph, each arc with its reverse beside it.
#include <boost/graph/compressed_sparse_row_graph.hpp>
#include <boost/graph/push_relabel_max_flow.hpp>
#include <boost/property_map/property_map.hpp>

#include "network.hpp"

using Graph = boost::compressed_sparse_row_graph<boost::directedS, boost::no_property, boost::no_property,
                                                 boost::no_property, int, int>;
using Edge = boost::graph_traits<Graph>::edge_descriptor;

extern "C" int max_flow(const Job *job, int backward) {
    const Network net = network_of(*job, backward);
    // Places of the arcs and their reverses by tail.
    const int m = net.arcs.size();
    std::vector<int> start(net.nodes + 1, 0), there(m), back(m);
    for (const auto &[u, v] : net.arcs) start[u + 1]++, start[v + 1]++;
    for (int u = 0; u < net.nodes; u++) start[u + 1] += start[u];
    std::vector<std::pair<int, int>> edges(2 * m);
    std::vector<Edge> reverse(2 * m);
    std::vector<int> capacity(2 * m, 0), residual(2 * m);
    for (int i = 0; i < m; i++) {
        const auto [u, v] = net.arcs[i];
        const int a = start[u]++, b = start[v]++;
        edges[a] = {u, v};
        edges[b] = {v, u};
        capacity[a] = 1;
        reverse[a] = Edge(v, b);
        reverse[b] = Edge(u, a);
    }
    Graph graph(boost::edges_are_sorted, edges.begin(), edges.end(), net.nodes);
    const auto index = boost::get(boost::edge_index, graph);
    return boost::push_relabel_max_flow(graph, net.source, net.sink,
                                        boost::make_iterator_property_map(capacity.begin(), index),
                                        boost::make_iterator_property_map(residual.begin(), index),
                                        boost::make_iterator_property_map(reverse.begin(), index),
                                        boost::get(boost::vertex_index, graph));
}
