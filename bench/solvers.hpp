// The same question asked of two libraries of graph algorithms.
#pragma once

#include "plants.hpp"

#include <boost/graph/adjacency_list.hpp>
#include <boost/graph/push_relabel_max_flow.hpp>
#include <lemon/circulation.h>
#include <lemon/preflow.h>
#include <lemon/smart_graph.h>
#include <optional>

struct Solution {
    long total;
    std::vector<bool> near, far;
};

// One arc of a network with a capacity; `flow` is what a solver found.
struct Arc {
    int from, to;
    long capacity;
};

inline std::vector<Arc> residuals(const std::vector<Line> &lines, const std::vector<long> &flow) {
    std::vector<Arc> arcs;
    for (size_t k = 0; k < lines.size(); k++) {
        if (flow[k] < lines[k].high) arcs.push_back({lines[k].from, lines[k].to, lines[k].high - flow[k]});
        if (flow[k] > lines[k].low) arcs.push_back({lines[k].to, lines[k].from, flow[k] - lines[k].low});
    }
    return arcs;
}

inline std::vector<bool> reached(int junctions, const std::vector<Arc> &arcs, int from, bool backward) {
    std::vector<std::vector<int>> next(junctions);
    for (const Arc &arc : arcs)
        if (arc.capacity > 0) next[backward ? arc.to : arc.from].push_back(backward ? arc.from : arc.to);
    std::vector<bool> marks(junctions);
    std::vector<int> waiting = {from};
    marks[from] = true;
    while (!waiting.empty()) {
        int v = waiting.back();
        waiting.pop_back();
        for (int w : next[v])
            if (!marks[w]) {
                marks[w] = true;
                waiting.push_back(w);
            }
    }
    return marks;
}

// A solver finds a feasible flow, and the greatest flow of a network with what is left of each arc.
struct Solver {
    virtual ~Solver() = default;
    virtual std::optional<std::vector<long>> feasible(int junctions, const std::vector<Line> &lines) = 0;
    virtual long greatest(int junctions, std::vector<Arc> &arcs, int source, int target) = 0;

    std::optional<Solution> solve(int junctions, const std::vector<Line> &lines, bool greatest_wanted) {
        auto flow = feasible(junctions, lines);
        if (!flow) return std::nullopt;
        long total = 0;
        for (size_t k = 0; k < lines.size(); k++)
            if (lines[k].from == 0) total += (*flow)[k];
        std::vector<Arc> arcs = residuals(lines, *flow);
        int source = greatest_wanted ? 0 : 1, target = 1 - source;
        long more = greatest(junctions, arcs, source, target);
        std::vector<bool> near, far;
        if (greatest_wanted) {
            near = reached(junctions, arcs, 0, false);
            far = reached(junctions, arcs, 1, true);
        } else {
            near = reached(junctions, arcs, 0, true);
            far = reached(junctions, arcs, 1, false);
        }
        far.flip();
        return Solution{greatest_wanted ? total + more : total - more, near, far};
    }
};

struct Lemon : Solver {
    using Graph = lemon::SmartDigraph;

    std::optional<std::vector<long>> feasible(int junctions, const std::vector<Line> &lines) override {
        Graph graph;
        std::vector<Graph::Node> nodes;
        for (int v = 0; v < junctions; v++) nodes.push_back(graph.addNode());
        Graph::ArcMap<long> low(graph), high(graph);
        Graph::NodeMap<long> supply(graph, 0);
        std::vector<Graph::Arc> arcs;
        for (const Line &line : lines) {
            Graph::Arc arc = graph.addArc(nodes[line.from], nodes[line.to]);
            low[arc] = line.low;
            high[arc] = line.high;
            arcs.push_back(arc);
        }
        Graph::Arc back = graph.addArc(nodes[1], nodes[0]);
        low[back] = 0;
        high[back] = MOST_LINES * MOST_FLOW;
        lemon::Circulation<Graph, Graph::ArcMap<long>, Graph::ArcMap<long>, Graph::NodeMap<long>> circulation(graph, low, high, supply);
        if (!circulation.run()) return std::nullopt;
        std::vector<long> flow;
        for (Graph::Arc arc : arcs) flow.push_back(circulation.flow(arc));
        return flow;
    }

    long greatest(int junctions, std::vector<Arc> &arcs, int source, int target) override {
        Graph graph;
        std::vector<Graph::Node> nodes;
        for (int v = 0; v < junctions; v++) nodes.push_back(graph.addNode());
        Graph::ArcMap<long> capacity(graph);
        std::vector<Graph::Arc> held;
        for (const Arc &arc : arcs) {
            held.push_back(graph.addArc(nodes[arc.from], nodes[arc.to]));
            capacity[held.back()] = arc.capacity;
        }
        lemon::Preflow<Graph, Graph::ArcMap<long>> preflow(graph, capacity, nodes[source], nodes[target]);
        preflow.run();
        size_t count = arcs.size();
        for (size_t k = 0; k < count; k++) {
            long flow = preflow.flow(held[k]);
            arcs[k].capacity -= flow;
            if (flow > 0) arcs.push_back({arcs[k].to, arcs[k].from, flow});
        }
        return preflow.flowValue();
    }
};

struct Boost : Solver {
    using Traits = boost::adjacency_list_traits<boost::vecS, boost::vecS, boost::directedS>;
    using Graph = boost::adjacency_list<
        boost::vecS, boost::vecS, boost::directedS, boost::no_property,
        boost::property<boost::edge_capacity_t, long,
                        boost::property<boost::edge_residual_capacity_t, long,
                                        boost::property<boost::edge_reverse_t, Traits::edge_descriptor>>>>;

    static long push_relabel(int junctions, std::vector<Arc> &arcs, int source, int target) {
        Graph graph(junctions);
        auto capacity = get(boost::edge_capacity, graph);
        auto residual = get(boost::edge_residual_capacity, graph);
        auto reverse = get(boost::edge_reverse, graph);
        std::vector<Traits::edge_descriptor> held;
        for (const Arc &arc : arcs) {
            auto forward = add_edge(arc.from, arc.to, graph).first;
            auto backward = add_edge(arc.to, arc.from, graph).first;
            capacity[forward] = arc.capacity;
            capacity[backward] = 0;
            reverse[forward] = backward;
            reverse[backward] = forward;
            held.push_back(forward);
        }
        long value = push_relabel_max_flow(graph, source, target);
        size_t count = arcs.size();
        for (size_t k = 0; k < count; k++) {
            long flow = arcs[k].capacity - residual[held[k]];
            arcs[k].capacity -= flow;
            if (flow > 0) arcs.push_back({arcs[k].to, arcs[k].from, flow});
        }
        return value;
    }

    // The usual reduction: what the lows leave over at a junction comes from, or goes to, an added junction.
    std::optional<std::vector<long>> feasible(int junctions, const std::vector<Line> &lines) override {
        std::vector<long> over(junctions);
        std::vector<Arc> arcs;
        for (const Line &line : lines) {
            over[line.to] += line.low;
            over[line.from] -= line.low;
            arcs.push_back({line.from, line.to, line.high - line.low});
        }
        arcs.push_back({1, 0, MOST_LINES * MOST_FLOW});
        long wanted = 0;
        for (int v = 0; v < junctions; v++) {
            if (over[v] > 0) arcs.push_back({junctions, v, over[v]});
            if (over[v] < 0) arcs.push_back({v, junctions + 1, -over[v]});
            wanted += std::max(0L, over[v]);
        }
        if (push_relabel(junctions + 2, arcs, junctions, junctions + 1) < wanted) return std::nullopt;
        std::vector<long> flow;
        for (size_t k = 0; k < lines.size(); k++) flow.push_back(lines[k].high - arcs[k].capacity);
        return flow;
    }

    long greatest(int junctions, std::vector<Arc> &arcs, int source, int target) override {
        return push_relabel(junctions, arcs, source, target);
    }
};
