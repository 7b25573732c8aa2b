// Commands that are drawn from a number, made through the library, and told as the lines and the replies of `txgraph replay`.
#ifndef DRAWN_HPP
#define DRAWN_HPP

#include <algorithm>
#include <cstdint>
#include <optional>
#include <string>
#include <vector>

#include "txgraph.hpp"

namespace drawn {

using txgraph::Graph, txgraph::Id, txgraph::Level, txgraph::Names, txgraph::Picked;

// splitmix64
class Dice {
public:
    explicit Dice(std::uint64_t seed) : state_(seed) {}
    std::uint64_t below(std::uint64_t n) {
        std::uint64_t z = (state_ += 0x9e3779b97f4a7c15);
        z = (z ^ (z >> 30)) * 0xbf58476d1ce4e5b9;
        z = (z ^ (z >> 27)) * 0x94d049bb133111eb;
        return (z ^ (z >> 31)) % n;
    }

private:
    std::uint64_t state_;
};

enum class Word { add, dep, fee, remove, cluster, ancestors, descendants, chunk, before, count, stage, commit, abort, settle, compare, mine,
                  unmine, evict, trim, block, order, diagram, dump };

struct Command {
    Word word;
    Id a = 0, b = 0;
    std::int64_t fee = 0;
    std::uint64_t size = 0;
    Level level = Level::main;
    std::vector<Id> ids{};
};

inline const char *spelled(Word word) {
    static const char *const words[] = {"add", "dep", "fee", "remove", "cluster", "ancestors", "descendants", "chunk", "before", "count",
                                        "stage", "commit", "abort", "settle", "compare", "mine", "unmine", "evict", "trim", "block",
                                        "order", "diagram", "dump"};
    return words[static_cast<int>(word)];
}

// One command. `block` has the transactions of the latest block that was filled, to be mined.
inline Command draw(Dice &dice, std::uint64_t names, const std::vector<Id> &block, bool orders) {
    static const struct { Word word; unsigned share; } shares[] = {
        {Word::add, 359}, {Word::dep, 270}, {Word::fee, 50}, {Word::remove, 60}, {Word::cluster, 15}, {Word::ancestors, 15},
        {Word::descendants, 15}, {Word::chunk, 20}, {Word::before, 20}, {Word::count, 10}, {Word::stage, 20}, {Word::commit, 8},
        {Word::abort, 8}, {Word::settle, 12}, {Word::compare, 15}, {Word::mine, 30}, {Word::unmine, 10}, {Word::evict, 20},
        {Word::trim, 15}, {Word::block, 25}, {Word::order, 1}, {Word::diagram, 1}, {Word::dump, 1}};
    unsigned left = static_cast<unsigned>(dice.below(orders ? 1000 : 997));
    Command drawn{Word::add};
    for (const auto &share : shares) {
        drawn.word = share.word;
        if (left < share.share) break;
        left -= share.share;
    }
    drawn.a = dice.below(names);
    drawn.b = dice.below(8) ? (drawn.a + 1 + dice.below(16)) % names : dice.below(names);
    drawn.fee = static_cast<std::int64_t>(dice.below(10'000)) - 500;
    if (dice.below(500) == 0) drawn.fee = 2'100'000'000'000'001;
    drawn.size = 50 + dice.below(500);
    if (dice.below(500) == 0) drawn.size = dice.below(2) ? 0 : 500'000;
    drawn.level = dice.below(2) ? Level::main : Level::top;
    if (drawn.word == Word::block) drawn.size = 200 + dice.below(4'000);
    if (drawn.word == Word::mine) {
        if (!block.empty() && dice.below(4)) drawn.ids = block;
        else for (std::uint64_t i = 0; i <= dice.below(3); i++) drawn.ids.push_back(dice.below(names));
    }
    return drawn;
}

inline const char *spelled(Level level) { return level == Level::main ? "main" : "top"; }

inline std::string line_of(const Command &command) {
    std::string line = spelled(command.word);
    const auto put = [&line](const std::string &word) { line += ' ' + word; };
    switch (command.word) {
    case Word::add: put(std::to_string(command.a)), put(std::to_string(command.fee)), put(std::to_string(command.size)); break;
    case Word::dep: case Word::before: put(std::to_string(command.a)), put(std::to_string(command.b)); break;
    case Word::fee: put(std::to_string(command.a)), put(std::to_string(command.fee)); break;
    case Word::remove: case Word::chunk: put(std::to_string(command.a)); break;
    case Word::cluster: case Word::ancestors: case Word::descendants: put(std::to_string(command.a)), put(spelled(command.level)); break;
    case Word::count: case Word::order: case Word::diagram: put(spelled(command.level)); break;
    case Word::mine: for (auto id : command.ids) put(std::to_string(id)); break;
    case Word::block: put(std::to_string(command.size)); break;
    default: break;
    }
    return line + '\n';
}

inline std::string refusal_of(const Graph &graph) {
    static const char *const words[] = {"", "", "", "late", "range", "fee", "size", "taken", "clustersize", "full", "unknown", "cycle",
                                        "count", "staging", "twice", "parent", "empty", "nostaging", "memory", "oversized", "noblock", "back"};
    std::string said = std::string("refused ") + words[graph.code()];
    switch (graph.code()) {
    case TXGRAPH_CLUSTER_SIZE: case TXGRAPH_UNKNOWN: case TXGRAPH_COUNT: case TXGRAPH_TWICE: case TXGRAPH_PARENT: case TXGRAPH_BACK:
        said += ' ' + std::to_string(graph.kept());
        break;
    default: break;
    }
    return said + '\n';
}

inline std::string fee_of(const txgraph::Total &total) {
    unsigned __int128 amount = (static_cast<unsigned __int128>(total.high) << 64) | total.low;
    std::string digits;
    do digits += static_cast<char>('0' + static_cast<int>(amount % 10));
    while (amount /= 10);
    if (total.negative) digits += '-';
    std::reverse(digits.begin(), digits.end());
    return digits;
}

template <class Ids> std::string with_ids(std::string said, const Ids &ids) {
    for (auto id : ids) said += ' ' + std::to_string(id);
    return said + '\n';
}

inline std::string told(const Graph &graph, bool done) { return done ? "ok\n" : refusal_of(graph); }

inline std::string told(const Graph &graph, const std::optional<Names> &found) {
    return found ? with_ids("ids", found->ids()) : refusal_of(graph);
}

inline std::string told(const Graph &graph, const char *word, const std::optional<Picked> &found) {
    if (!found) return refusal_of(graph);
    return with_ids(std::string(word) + ' ' + fee_of(found->total) + ' ' + std::to_string(found->total.size), found->ids);
}

inline const char *spelled(txgraph::Verdict verdict) {
    static const char *const words[] = {"better", "worse", "equal", "incomparable"};
    return words[verdict];
}

// Makes the command through the library, and tells it as `txgraph replay` does.
inline std::string make(Graph &graph, const Command &command, std::vector<Id> &block) {
    switch (command.word) {
    case Word::add: return told(graph, graph.add(command.a, command.fee, command.size));
    case Word::dep: return told(graph, graph.dep(command.a, command.b));
    case Word::fee: return told(graph, graph.fee(command.a, command.fee));
    case Word::remove: return told(graph, graph.remove(command.a));
    case Word::cluster: return told(graph, graph.cluster(command.level, command.a));
    case Word::ancestors: return told(graph, graph.ancestors(command.level, command.a));
    case Word::descendants: return told(graph, graph.descendants(command.level, command.a));
    case Word::chunk: {
        const auto chunk = graph.chunk(command.a);
        if (!chunk) return refusal_of(graph);
        return with_ids("chunk " + std::to_string(chunk->rate.fee) + ' ' + std::to_string(chunk->rate.size), chunk->names.ids());
    }
    case Word::before: {
        const auto place = graph.before(command.a, command.b);
        if (!place) return refusal_of(graph);
        return *place == TXGRAPH_BEFORE ? "before\n" : *place == TXGRAPH_SAME ? "same\n" : "after\n";
    }
    case Word::count: return "count " + std::to_string(graph.count(command.level)) + '\n';
    case Word::stage: return told(graph, graph.stage());
    case Word::commit: return told(graph, graph.commit());
    case Word::abort: return told(graph, graph.abort());
    case Word::settle: {
        const auto verdict = graph.settle();
        if (!verdict) return refusal_of(graph);
        return std::string(*verdict == TXGRAPH_BETTER ? "committed " : "aborted ") + spelled(*verdict) + '\n';
    }
    case Word::compare: {
        const auto verdict = graph.compare();
        if (!verdict) return refusal_of(graph);
        return std::string(spelled(*verdict)) + '\n';
    }
    case Word::mine: return told(graph, graph.mine(command.ids));
    case Word::unmine: {
        const auto ids = graph.unmine();
        return ids ? with_ids("unmined", *ids) : refusal_of(graph);
    }
    case Word::evict: return told(graph, "evicted", graph.evict());
    case Word::trim: return told(graph, "trimmed", graph.trim());
    case Word::block: {
        const auto filled = graph.block(command.size);
        if (filled) block = filled->ids;
        return told(graph, "block", filled);
    }
    case Word::order: {
        const auto order = graph.order(command.level);
        if (!order) return refusal_of(graph);
        std::string said;
        std::size_t from = 0;
        for (const auto &part : order->parts) {
            said += with_ids("chunk " + std::to_string(part.fee) + ' ' + std::to_string(part.size), std::span(order->ids).subspan(from, part.ids));
            from += part.ids;
        }
        return said + "end\n";
    }
    case Word::diagram: {
        const auto points = graph.diagram(command.level);
        if (!points) return refusal_of(graph);
        std::string said;
        for (const auto &point : *points) said += "point " + std::to_string(point.size) + ' ' + fee_of(point) + '\n';
        return said + "end\n";
    }
    case Word::dump: {
        const auto text = graph.dump();
        return text ? std::string(text->begin(), text->end()) : refusal_of(graph);
    }
    }
    return "";
}

} // namespace drawn

#endif
