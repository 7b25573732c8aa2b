// A transaction graph for a node's mempool: a thin class over txgraph.h, header alone, for C++20. What each call answers, and the units, stand
// there. A graph isn't copied, and stays on its thread.
#ifndef TXGRAPH_HPP
#define TXGRAPH_HPP

#include <array>
#include <cstddef>
#include <cstdint>
#include <optional>
#include <span>
#include <unordered_set>
#include <utility>
#include <vector>

#include "txgraph.h"

namespace txgraph {

using Id = std::uint64_t;
using Code = txgraph_code;
using Rate = txgraph_rate;
using Total = txgraph_total;
using Verdict = txgraph_verdict;
using Place = txgraph_place;
using Part = txgraph_part;
using Flow = txgraph_flow;

enum class Level : std::uint32_t { main = TXGRAPH_MAIN, top = TXGRAPH_TOP };

struct Limits {
    std::uint64_t count = 64;        // transactions of a cluster
    std::uint64_t size = 404'000;    // virtual bytes of a cluster
    std::uint64_t total = 1'048'576; // live transactions
    bool defer = false;              // whether a dependency may pass the first two for a while
};

// Transactions of one cluster, at most 128.
class Names {
public:
    [[nodiscard]] std::span<const Id> ids() const { return {ids_.data(), count_}; }
    [[nodiscard]] std::size_t size() const { return count_; }

private:
    friend class Graph;
    std::array<Id, TXGRAPH_MOST> ids_{};
    std::size_t count_ = 0;
};

// A chunk: its fee, its size, and its transactions in their order.
struct Chunk {
    Rate rate{};
    Names names;
};

// Transactions that were picked, with what they pay and take together.
struct Picked {
    Total total{};
    std::vector<Id> ids;
};

// An order: its chunks by falling feerate, then their transactions and their flows, each chunk by chunk.
struct Order {
    std::vector<Part> parts;
    std::vector<Id> ids;
    std::vector<Flow> flows;
};

// The two sides of a replacement: the chunks that main alone has, and those that staging alone has.
struct Sides {
    std::vector<Rate> main;
    std::vector<Rate> staging;
};

// Clusters, in no order: how many transactions each has, and their transactions, of one cluster after the other.
struct Clusters {
    std::vector<std::size_t> counts;
    std::vector<Id> ids;
};

// How many mined blocks can be taken back, and how many transactions the latest has.
struct Blocks {
    std::size_t count = 0;
    std::size_t latest = 0;
};

// The chunks of main's order one by one, as they were when it was made, for a block that is filled chunk by chunk. A chunk that is skipped takes
// the later chunks of its cluster with it, so that what is included has all its ancestors.
class Builder {
public:
    struct Offer {
        Part part;
        std::span<const Id> ids;
    };

    Builder(Order order, std::vector<std::size_t> numbers) : order_(std::move(order)), numbers_(std::move(numbers)) {}

    // The next chunk, or none behind the last one.
    [[nodiscard]] std::optional<Offer> current() const {
        if (at_ == order_.parts.size()) return std::nullopt;
        return Offer{order_.parts[at_], std::span(order_.ids).subspan(from_, order_.parts[at_].ids)};
    }
    void include() {
        pass();
        while (at_ < numbers_.size() && skipped_.contains(numbers_[at_])) pass();
    }
    void skip() {
        if (at_ < numbers_.size()) skipped_.insert(numbers_[at_]);
        include();
    }

private:
    void pass() {
        if (at_ == order_.parts.size()) return;
        from_ += order_.parts[at_].ids;
        at_++;
    }

    Order order_;
    std::vector<std::size_t> numbers_;
    std::unordered_set<std::size_t> skipped_;
    std::size_t at_ = 0;
    std::size_t from_ = 0;
};

// Whether the bytes are the text of a certificate.
inline Code check(std::span<const std::uint8_t> bytes) {
    const std::uint8_t none = 0;
    return static_cast<Code>(txgraph_check(bytes.empty() ? &none : bytes.data(), bytes.size()));
}

// What each call answered is told by `code`, and the number that a refusal keeps by `kept`. A call that gives a value gives none where it is
// refused.
class Graph {
public:
    // A graph without transactions. Where a limit is out of its range, or there is no memory, `code` says so, and each call answers
    // TXGRAPH_NO_GRAPH.
    explicit Graph(const Limits &limits = {}) {
        code_ = as_code(txgraph_new(&slot_, limits.count, limits.size, limits.total, limits.defer));
    }

    // The graph that a text tells, which `dump` of a graph gave. `code` says so where there is none.
    Graph(std::span<const std::uint8_t> text, const Limits &limits) {
        const std::uint8_t none = 0;
        code_ = as_code(txgraph_load(&slot_, text.empty() ? &none : text.data(), text.size(), limits.count, limits.size, limits.total,
                                     limits.defer, &steps_));
    }

    ~Graph() { txgraph_close(&slot_); }

    Graph(const Graph &) = delete;
    Graph &operator=(const Graph &) = delete;

    Graph(Graph &&other) noexcept
        : slot_(std::exchange(other.slot_, txgraph_slot{})), code_(other.code_), kept_(other.kept_), steps_(other.steps_) {}

    Graph &operator=(Graph &&other) noexcept {
        if (this != &other) {
            txgraph_close(&slot_);
            slot_ = std::exchange(other.slot_, txgraph_slot{});
            code_ = other.code_;
            kept_ = other.kept_;
            steps_ = other.steps_;
        }
        return *this;
    }

    // The answer to the latest call, and the number that it keeps.
    [[nodiscard]] Code code() const { return code_; }
    [[nodiscard]] std::uint64_t kept() const { return kept_; }

    // How many steps the solver took so far.
    [[nodiscard]] std::uint64_t steps() const { return steps_; }

    // ---- changes; true where the call was done

    bool set_limits(const Limits &limits) {
        return is_done(txgraph_set_limits(&slot_, limits.count, limits.size, limits.total, limits.defer, &kept_, &steps_));
    }
    bool add(Id id, std::int64_t fee, std::uint64_t size) { return is_done(txgraph_add(&slot_, id, fee, size, &kept_, &steps_)); }
    bool dep(Id parent, Id child) { return is_done(txgraph_dep(&slot_, parent, child, &kept_, &steps_)); }
    bool fee(Id id, std::int64_t fee) { return is_done(txgraph_fee(&slot_, id, fee, &kept_, &steps_)); }
    bool remove(Id id) { return is_done(txgraph_remove(&slot_, id, &kept_, &steps_)); }
    bool stage() { return is_done(txgraph_stage(&slot_, &kept_, &steps_)); }
    bool commit() { return is_done(txgraph_commit(&slot_, &kept_, &steps_)); }
    bool abort() { return is_done(txgraph_abort(&slot_, &kept_, &steps_)); }

    bool mine(std::span<const Id> ids) {
        const Id none = 0;
        return is_done(txgraph_mine(&slot_, ids.empty() ? &none : ids.data(), ids.size(), &kept_, &steps_));
    }

    std::optional<std::vector<Id>> unmine() {
        if (!is_done(txgraph_unmine(&slot_, &kept_, &steps_))) return std::nullopt;
        return picked();
    }
    std::optional<Picked> evict() {
        Picked found;
        return all_of(found, txgraph_evict(&slot_, &found.total, &kept_, &steps_));
    }
    std::optional<Picked> trim() {
        Picked found;
        return all_of(found, txgraph_trim(&slot_, &found.total, &kept_, &steps_));
    }
    std::optional<Verdict> settle() {
        std::uint32_t verdict = 0;
        if (!is_done(txgraph_settle(&slot_, &verdict, &kept_))) return std::nullopt;
        return static_cast<Verdict>(verdict);
    }

    // ---- questions

    std::optional<Verdict> compare() {
        std::uint32_t verdict = 0;
        if (!is_done(txgraph_compare(&slot_, &verdict, &kept_))) return std::nullopt;
        return static_cast<Verdict>(verdict);
    }
    std::optional<Place> before(Id a, Id b) {
        std::uint32_t place = 0;
        if (!is_done(txgraph_before(&slot_, a, b, &place, &kept_))) return std::nullopt;
        return static_cast<Place>(place);
    }
    std::optional<Chunk> chunk(Id id) {
        Chunk found;
        if (!is_done(txgraph_chunk(&slot_, id, &found.rate, found.names.ids_.data(), TXGRAPH_MOST, &found.names.count_, &kept_)))
            return std::nullopt;
        return found;
    }
    std::optional<Rate> main_chunk_rate(Id id) {
        Rate rate{};
        if (!is_done(txgraph_main_chunk_rate(&slot_, id, &rate, &kept_))) return std::nullopt;
        return rate;
    }
    std::optional<Chunk> worst() {
        Chunk found;
        if (!is_done(txgraph_worst(&slot_, &found.rate, found.names.ids_.data(), TXGRAPH_MOST, &found.names.count_, &kept_)))
            return std::nullopt;
        return found;
    }
    bool sort_by_main_order(std::span<Id> ids) {
        Id none = 0;
        return is_done(txgraph_sort_by_main_order(&slot_, ids.empty() ? &none : ids.data(), ids.size()));
    }
    std::optional<Names> cluster(Level level, Id id) { return look(txgraph_cluster, level, id); }
    std::optional<Names> ancestors(Level level, Id id) { return look(txgraph_ancestors, level, id); }
    std::optional<Names> descendants(Level level, Id id) { return look(txgraph_descendants, level, id); }
    std::optional<Names> covers(Level level, Id id) { return look(txgraph_covers, level, id); }

    std::optional<std::vector<Id>> ancestors_union(Level level, std::span<const Id> names) {
        return unite(txgraph_ancestors_union, level, names);
    }
    std::optional<std::vector<Id>> descendants_union(Level level, std::span<const Id> names) {
        return unite(txgraph_descendants_union, level, names);
    }
    std::optional<std::size_t> count_distinct_clusters(Level level, std::span<const Id> ids) {
        const Id none = 0;
        std::size_t count = 0;
        if (!is_done(txgraph_count_distinct_clusters(&slot_, as_number(level), ids.empty() ? &none : ids.data(), ids.size(), &count)))
            return std::nullopt;
        return count;
    }

    std::size_t count(Level level) {
        std::size_t count = 0;
        is_done(txgraph_count(&slot_, as_number(level), &count));
        return count;
    }
    bool exists(Level level, Id id) {
        bool there = false;
        is_done(txgraph_exists(&slot_, as_number(level), id, &there));
        return there;
    }
    bool oversized(Level level) {
        bool over = false;
        is_done(txgraph_oversized(&slot_, as_number(level), &over));
        return over;
    }
    std::optional<Rate> sums(Id id) {
        bool live = false;
        Rate rate{};
        is_done(txgraph_sums(&slot_, id, &live, &rate));
        if (!live) return std::nullopt;
        return rate;
    }
    Limits limits() {
        Limits found;
        is_done(txgraph_limits(&slot_, &found.count, &found.size, &found.total, &found.defer));
        return found;
    }
    bool staged() {
        bool staged = false;
        is_done(txgraph_staged(&slot_, &staged));
        return staged;
    }
    std::uint64_t additions() {
        std::uint64_t count = 0;
        is_done(txgraph_additions(&slot_, &count));
        return count;
    }
    std::uint64_t least() {
        std::uint64_t size = 0;
        is_done(txgraph_least(&slot_, &size));
        return size;
    }
    Blocks blocks() {
        Blocks found;
        is_done(txgraph_blocks(&slot_, &found.count, &found.latest));
        return found;
    }
    bool minable(std::span<const Id> ids) {
        const Id none = 0;
        return is_done(txgraph_minable(&slot_, ids.empty() ? &none : ids.data(), ids.size(), &kept_));
    }
    std::optional<Picked> block(std::uint64_t size) {
        Picked found;
        return all_of(found, txgraph_block(&slot_, size, &found.total, &kept_));
    }

    // What the latest evict, trim, unmine or block picked, from a place on: how many were copied into `ids`. `code` is TXGRAPH_MORE where others
    // come behind them.
    std::size_t picked(std::size_t from, std::span<Id> ids) { return piece(txgraph_picked, from, ids); }

    // ---- a whole level

    std::optional<Order> order(Level level) {
        if (!is_done(txgraph_order(&slot_, as_number(level), &kept_))) return std::nullopt;
        return Order{all<Part>(txgraph_parts), all<Id>(txgraph_part_ids), all<Flow>(txgraph_flows)};
    }
    std::optional<Builder> builder() {
        auto found = order(Level::main);
        if (!found || !is_done(txgraph_numbered(&slot_, &kept_))) return std::nullopt;
        return Builder(std::move(*found), all<std::size_t>(txgraph_numbers));
    }
    std::optional<Sides> main_staging_diagrams() {
        if (!is_done(txgraph_main_staging_diagrams(&slot_, &kept_))) return std::nullopt;
        return Sides{all<Rate>(txgraph_main_side), all<Rate>(txgraph_staging_side)};
    }
    std::optional<std::vector<Id>> names(Level level) {
        if (!is_done(txgraph_names(&slot_, as_number(level), &kept_))) return std::nullopt;
        return all<Id>(txgraph_ids);
    }
    std::optional<Clusters> clusters(Level level) {
        if (!is_done(txgraph_clusters(&slot_, as_number(level), &kept_))) return std::nullopt;
        return Clusters{all<std::size_t>(txgraph_cluster_counts), all<Id>(txgraph_cluster_ids)};
    }
    std::optional<std::vector<Total>> diagram(Level level) {
        if (!is_done(txgraph_diagram(&slot_, as_number(level), &kept_))) return std::nullopt;
        return all<Total>(txgraph_corners);
    }
    std::optional<std::vector<std::uint8_t>> dump() {
        if (!is_done(txgraph_dump(&slot_, &kept_))) return std::nullopt;
        return all<std::uint8_t>(txgraph_text);
    }

private:
    static Code as_code(std::uint32_t code) { return static_cast<Code>(code); }
    static std::uint32_t as_number(Level level) { return static_cast<std::uint32_t>(level); }

    bool is_done(std::uint32_t code) {
        code_ = as_code(code);
        return code == TXGRAPH_DONE;
    }

    template <class Item> using Piece = std::uint32_t(txgraph_slot *, std::size_t, Item *, std::size_t, std::size_t *);

    template <class Item> std::size_t piece(Piece<Item> give, std::size_t from, std::span<Item> items) {
        Item none{};
        std::size_t count = 0;
        code_ = as_code(give(&slot_, from, items.empty() ? &none : items.data(), items.size(), &count));
        return count;
    }

    // all of a list, in pieces
    template <class Item> std::vector<Item> all(Piece<Item> give) {
        const Code answered = code_;
        std::vector<Item> items;
        std::array<Item, 64> part;
        do {
            const std::size_t count = piece<Item>(give, items.size(), part);
            items.insert(items.end(), part.begin(), part.begin() + static_cast<std::ptrdiff_t>(count));
        } while (code_ == TXGRAPH_MORE);
        code_ = answered;
        return items;
    }

    std::vector<Id> picked() { return all<Id>(txgraph_picked); }

    std::optional<Picked> all_of(Picked &found, std::uint32_t code) {
        if (!is_done(code)) return std::nullopt;
        found.ids = picked();
        return std::move(found);
    }

    using Search = std::uint32_t(txgraph_slot *, std::uint32_t, std::uint64_t, std::uint64_t *, std::size_t, std::size_t *, std::uint64_t *);

    std::optional<Names> look(Search search, Level level, Id id) {
        Names found;
        if (!is_done(search(&slot_, as_number(level), id, found.ids_.data(), TXGRAPH_MOST, &found.count_, &kept_)))
            return std::nullopt;
        return found;
    }

    using Union = std::uint32_t(txgraph_slot *, std::uint32_t, const std::uint64_t *, std::size_t, std::uint64_t *, std::size_t, std::size_t *);

    // asked again where there are more than there was room for
    std::optional<std::vector<Id>> unite(Union ask, Level level, std::span<const Id> names) {
        const Id none = 0;
        std::vector<Id> found(TXGRAPH_MOST);
        std::size_t count = 0;
        for (;;) {
            const Id *at = names.empty() ? &none : names.data();
            if (!is_done(ask(&slot_, as_number(level), at, names.size(), found.data(), found.size(), &count))) return std::nullopt;
            const bool all = count <= found.size();
            found.resize(count);
            if (all) return found;
        }
    }

    txgraph_slot slot_{};
    Code code_ = TXGRAPH_DONE;
    std::uint64_t kept_ = 0;
    std::uint64_t steps_ = 0;
};

} // namespace txgraph

#endif
