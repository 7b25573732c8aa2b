// refused SEED COUNT NAMES: makes drawn commands, and refuses each request for memory of each of them in turn. A call that is refused for want
// of memory must leave the graph as it was; then it is made again, with one request more. At the end all that was taken must be given back.
#include <cstdlib>
#include <iostream>

#include "drawn.hpp"

namespace {

// the number of the request that is refused, counted down; below 0 none is
long countdown = -1;
long blocks = 0;
char nowhere;

struct tried {
    bool found;
    void *at;
};

bool is_refused() { return countdown >= 0 && countdown-- == 0; }

} // namespace

extern "C" {

tried rattle_alloc(std::size_t size, std::size_t align) {
    if (is_refused()) return {false, &nowhere};
    blocks++;
    return {true, std::malloc(size ? size : align)};
}

tried rattle_realloc(void *from, std::size_t, std::size_t size, std::size_t align) {
    if (is_refused()) return {false, &nowhere};
    return {true, std::realloc(from, size ? size : align)};
}

void rattle_dealloc(void *at, std::size_t, std::size_t) {
    blocks--;
    std::free(at);
}

} // extern "C"

namespace {

using namespace drawn;

// all that questions tell of the graph, none of which takes memory of the library
std::string told_of(Graph &graph, std::uint64_t names) {
    std::string all;
    for (auto level : {Level::main, Level::top}) {
        all += std::to_string(graph.count(level)) + (graph.oversized(level) ? " over\n" : "\n");
        for (Id id = 0; id < names; id++) {
            all += told(graph, graph.cluster(level, id)) + told(graph, graph.ancestors(level, id));
            if (const auto rate = graph.sums(id)) all += std::to_string(rate->fee) + ' ' + std::to_string(rate->size) + '\n';
        }
    }
    for (Id id = 0; id < names; id++) {
        if (const auto chunk = graph.chunk(id)) all += with_ids(std::to_string(chunk->rate.fee), chunk->names.ids());
    }
    const auto limits = graph.limits();
    all += std::to_string(limits.count) + ' ' + std::to_string(limits.size) + ' ' + std::to_string(limits.total) + (graph.staged() ? " staged\n" : "\n");
    const auto blocks = graph.blocks();
    all += std::to_string(graph.additions()) + ' ' + std::to_string(blocks.count) + ' ' + std::to_string(blocks.latest) + '\n';
    std::vector<Id> none;
    return all + make(graph, Command{Word::compare}, none);
}

bool run(std::uint64_t seed, std::uint64_t count, std::uint64_t names, long &refusals, long &harmless) {
    Dice dice(seed);
    Graph graph;
    std::vector<Id> block;
    graph.set_limits({12, 3'000, 1'048'576, true});
    for (std::uint64_t i = 0; i < count; i++) {
        const auto command = draw(dice, names, block, true);
        const auto before = told_of(graph, names);
        for (long at = 0;; at++) {
            auto filled = block;
            countdown = at;
            const auto reply = make(graph, command, filled);
            const bool reached = countdown < 0;
            countdown = -1;
            if (reply != "refused memory\n") {
                // a table that can't grow by as much as it asks for first asks for less, so a refused request may cost nothing
                if (reached) harmless++;
                block = filled;
                break;
            }
            refusals++;
            if (told_of(graph, names) != before) {
                std::cerr << "a refused call changed the graph: " << line_of(command);
                return false;
            }
        }
    }
    return true;
}

// no memory for a new graph
bool begin(long &refusals) {
    for (long at = 0;; at++) {
        countdown = at;
        Graph graph;
        countdown = -1;
        if (graph.code() == TXGRAPH_DONE) return true;
        if (graph.code() != TXGRAPH_MEMORY) return false;
        refusals++;
    }
}

} // namespace

int main(int argc, char **argv) {
    if (argc != 4) return 2;
    long refusals = 0;
    long harmless = 0;
    const bool well = begin(refusals)
        && run(std::strtoull(argv[1], nullptr, 10), std::strtoull(argv[2], nullptr, 10), std::strtoull(argv[3], nullptr, 10), refusals, harmless);
    std::cerr << refusals << " refused calls, " << harmless << " lost nothing, " << blocks << " blocks not given back\n";
    return well && blocks == 0 ? 0 : 1;
}
