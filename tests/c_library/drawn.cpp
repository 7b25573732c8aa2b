// drawn SEED COUNT NAMES LINES REPLIES: draws commands, writes them as lines of `txgraph replay`, and what the library answers as its replies.
#include <cstdlib>
#include <fstream>
#include <iostream>
#include <set>

#include "drawn.hpp"

namespace {

using namespace drawn;

// Whether a transaction's ancestors are itself and those of its parents with nothing between.
bool parents_agree(Graph &graph, Id id) {
    const auto covers = graph.covers(Level::main, id);
    const auto all = graph.ancestors(Level::main, id);
    if (!covers || !all) return false;
    std::set<Id> found{id};
    for (const Id parent : covers->ids()) {
        const auto above = graph.ancestors(Level::main, parent);
        if (!above) return false;
        found.insert(above->ids().begin(), above->ids().end());
    }
    return std::ranges::equal(found, all->ids());
}

// Whether the clusters of a level are those that each of its transactions lies in.
bool clusters_agree(Graph &graph, Level level) {
    const auto clusters = graph.clusters(level);
    if (!clusters || clusters->ids.size() != graph.count(level)) return false;
    std::size_t from = 0;
    for (const std::size_t count : clusters->counts) {
        const auto ids = std::span(clusters->ids).subspan(from, count);
        if (graph.count_distinct_clusters(level, ids) != 1) return false;
        from += count;
    }
    return from == clusters->ids.size() && graph.count_distinct_clusters(level, clusters->ids) == clusters->counts.size();
}

// Whether the readings of main agree with its order.
bool agree(Graph &graph) {
    const auto names = graph.names(Level::main);
    if (!names || names->size() != graph.count(Level::main)) return false;
    const auto order = graph.order(Level::main);
    if (!order) return graph.code() == TXGRAPH_OVERSIZED && !graph.worst() && !graph.builder();
    if (order->parts.empty()) return names->empty() && !graph.worst() && graph.code() == TXGRAPH_EMPTY_MAIN;
    for (std::size_t at = 0; at < names->size() && at < 50; at++)
        if (!parents_agree(graph, (*names)[at])) return false;
    const auto last = graph.worst();
    auto ids = order->ids;
    std::sort(ids.begin(), ids.end());
    if (ids != *names || !graph.sort_by_main_order(ids) || ids != order->ids) return false;
    auto builder = graph.builder();
    std::size_t offered = 0;
    for (; builder && builder->current(); builder->include()) offered++;
    return offered == order->parts.size() && last && last->rate.size == order->parts.back().size && last->names.ids().back() == order->ids.back();
}

// Whether the sides of a replacement make up the difference of both orders: chunk by chunk, with those that both levels have.
bool sides_agree(Graph &graph) {
    const auto sides = graph.main_staging_diagrams();
    if (!sides) return graph.code() == TXGRAPH_NO_STAGING || graph.code() == TXGRAPH_OVERSIZED;
    const auto sum = [&graph](Level level) {
        __int128 fee = 0;
        const auto order = graph.order(level);
        if (order)
            for (const auto &part : order->parts) fee += part.fee;
        return fee;
    };
    __int128 apart = 0;
    for (const auto &rate : sides->staging) apart += rate.fee;
    for (const auto &rate : sides->main) apart -= rate.fee;
    return apart == sum(Level::top) - sum(Level::main);
}

} // namespace

int main(int argc, char **argv) {
    if (argc != 6) return 2;
    drawn::Dice dice(std::strtoull(argv[1], nullptr, 10));
    const std::uint64_t count = std::strtoull(argv[2], nullptr, 10);
    const auto names = std::strtoull(argv[3], nullptr, 10);
    std::ofstream lines(argv[4]), replies(argv[5]);
    txgraph::Graph graph;
    std::vector<txgraph::Id> block;
    // limits that dependencies may pass for a while
    lines << "limits 40 9000 1048576 defer\n";
    replies << drawn::told(graph, graph.set_limits({40, 9'000, 1'048'576, true}));
    for (std::uint64_t i = 0; i < count; i++) {
        const auto command = drawn::draw(dice, names, block, true);
        lines << drawn::line_of(command);
        replies << drawn::make(graph, command, block);
        if (i % 500 != 0) continue;
        if (agree(graph) && sides_agree(graph) && clusters_agree(graph, Level::main) && clusters_agree(graph, Level::top)) continue;
        std::cerr << "readings don't agree behind " << drawn::line_of(command);
        return 1;
    }
    std::cerr << count << " commands, " << graph.steps() << " steps of the solver, " << graph.count(txgraph::Level::main) << " left\n";
    return lines.flush() && replies.flush() ? 0 : 1;
}
