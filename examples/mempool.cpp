// A node's mempool in C++: a package comes in, a replacement is tried in a staging and settled by its diagram, a block is filled, and the worst
// chunk goes.
#include <iostream>

#include "txgraph.hpp"

using txgraph::Graph, txgraph::Level, txgraph::Picked;

namespace {

void print(const char *what, const Picked &picked) {
    std::cout << what << ": " << (picked.total.negative ? "-" : "") << picked.total.low << " sat, " << picked.total.size << " vB:";
    for (auto id : picked.ids) std::cout << ' ' << id;
    std::cout << '\n';
}

// A parent that pays little, and a child that pays for it. Two others depend on nothing.
bool receive(Graph &pool) {
    return pool.add(1, 100, 200) && pool.add(2, 900, 200) && pool.dep(1, 2) && pool.add(3, 500, 500) && pool.add(4, 150, 300);
}

// Transaction 3 is replaced by one that pays more, where the whole diagram is better then.
bool replace(Graph &pool) {
    if (!pool.stage() || !pool.remove(3) || !pool.add(5, 1500, 500)) return false;
    const auto verdict = pool.settle();
    if (!verdict) return false;
    std::cout << "the replacement is " << (*verdict == TXGRAPH_BETTER ? "better, and in" : "not better, and out") << '\n';
    return true;
}

} // namespace

int main() {
    Graph pool;
    if (!receive(pool) || !replace(pool)) {
        std::cout << "refused " << pool.code() << ' ' << pool.kept() << '\n';
        return 1;
    }
    if (const auto block = pool.block(1000)) print("a block", *block);
    if (const auto evicted = pool.evict()) print("evicted", *evicted);
    std::cout << "left: " << pool.count(Level::main) << " transactions\n";
}
