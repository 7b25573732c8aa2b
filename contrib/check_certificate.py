#!/usr/bin/env python3
"""Checks a certificate text, which `proof LEVEL` writes, as `txgraph check` does. Shares nothing with txgraph but docs/PROTOCOL.md.

The answer is one line:
  yes           the order of the chunks is optimal, and the flows show why
  no syntax     the lines are no certificate text
  no graph      the transactions and the edges are no graph within the limits
  no order      the chunks don't list each transaction once, parents first, each chunk in one component
  no falling    a chunk's sums are wrong, or a chunk has a greater feerate than the one before it
  no flow       the flows don't balance a chunk, or run where there is no edge
Exit status: 0 yes, 1 no, 2 other arguments, 3 a failed read, 4 a failed write, 5 no memory, 6 more than 268,435,456 bytes."""
import argparse, graphlib, os, re, sys

MAX_INPUT, MAX_LINE, MAX_COUNT, MAX_FEE, MAX_SIZE = 268_435_456, 65_536, 1_048_576, 2_100_000_000_000_000, 4_000_000
NUMBER = re.compile(rb"0|-?[1-9][0-9]{0,30}")
N, FEE, BIGFEE, AMOUNT = range(2**64), range(-(2**63), 2**63), range(-(10**30), 10**30 + 1), range(1, 10**30 + 1)
FORMS = {b"tx": [N, FEE, N], b"edge": [N, N], b"chunk": [BIGFEE, N, N], b"flow": [N, N, AMOUNT]}


class Fails(Exception):
    """The first test that fails."""


def need(word, holds):
    if not holds:
        raise Fails(word)


def read(text):
    """The transactions (name, fee, size), the edges (parent, child) and the chunks (fee, size, names, flows) of a text."""
    lines, txs, edges, chunks = text.split(b"\n"), [], [], []
    need("syntax", all(len(line) <= MAX_LINE for line in lines))
    lines = [line for line in (line.removesuffix(b"\r") for line in lines) if line and not line.startswith(b"#")]
    need("syntax", lines and lines.pop() == b"end")
    for line in lines:
        word, *fields = line.split(b" ")
        need("syntax", word in FORMS and all(map(NUMBER.fullmatch, fields)))
        need("syntax", {b"tx": not edges and not chunks, b"edge": not chunks, b"chunk": True, b"flow": chunks}[word])
        values = tuple(map(int, fields))
        ranges = FORMS[word] + [N] * (len(values) - 3 if word == b"chunk" else 0)
        need("syntax", len(values) == len(ranges) and all(value in range for value, range in zip(values, ranges)))
        if word == b"tx":
            txs.append(values)
        elif word == b"edge":
            edges.append(values)
        elif word == b"chunk":
            chunks.append((values[0], values[1], values[2:], []))
        else:
            chunks[-1][3].append(values)
    return txs, edges, chunks


def components(names, edges):
    """For each name the one that stands for its component. Raises CycleError where the edges have a cycle."""
    leader, members, sorter = {name: name for name in names}, {name: [name] for name in names}, graphlib.TopologicalSorter()
    for parent, child in edges:
        sorter.add(child, parent)
        less, more = sorted((leader[parent], leader[child]), key=lambda name: len(members[name]))
        if less != more:
            leader.update(dict.fromkeys(members[less], more))
            members[more] += members.pop(less)
    sorter.prepare()
    return leader


def check(text):
    """The tests of docs/PROTOCOL.md in their order."""
    txs, edges, chunks = read(text)
    rates, links = {name: (fee, size) for name, fee, size in txs}, set(edges)
    need("graph", len(txs) <= MAX_COUNT and len(rates) == len(txs) and len(links) == len(edges))
    need("graph", all(abs(fee) <= MAX_FEE and 1 <= size <= MAX_SIZE for fee, size in rates.values()))
    need("graph", all(parent in rates and child in rates for parent, child in edges))
    leader = components(rates, edges)
    place = {name: i for i, name in enumerate(name for chunk in chunks for name in chunk[2])}
    need("order", place.keys() == rates.keys() and len(place) == sum(len(chunk[2]) for chunk in chunks))
    need("order", all(place[parent] < place[child] for parent, child in edges))
    need("order", all(leader[name] == leader[names[0]] for _, _, names, _ in chunks for name in names))
    for fee, size, names, _ in chunks:
        need("falling", fee == sum(rates[name][0] for name in names) and size == sum(rates[name][1] for name in names))
    need("falling", all(b[0] * a[1] <= a[0] * b[1] for a, b in zip(chunks, chunks[1:])))
    for fee, size, names, flows in chunks:
        need("flow", len({(child, parent) for child, parent, _ in flows}) == len(flows))
        left = {name: size * rates[name][0] - fee * rates[name][1] for name in names}
        for child, parent, amount in flows:
            need("flow", (parent, child) in links and parent in left and child in left)
            left[child] -= amount
            left[parent] += amount
        need("flow", not any(left.values()))


def answer(text):
    """`yes`, or `no` and the first test that fails."""
    try:
        check(text)
        return "yes"
    except graphlib.CycleError:
        return "no graph"
    except Fails as fault:
        return f"no {fault}"


def main():
    parser = argparse.ArgumentParser(description=__doc__, formatter_class=argparse.RawDescriptionHelpFormatter)
    parser.add_argument("file", nargs="?", help="the text; without it, standard input is read")
    path, status = parser.parse_args().file, 3
    try:
        text = (open(path, "rb") if path else sys.stdin.buffer).read(MAX_INPUT + 1)
        if len(text) > MAX_INPUT:
            return 6
        said, status = answer(text), 4
        os.write(1, f"{said}\n".encode())
        return 0 if said == "yes" else 1
    except MemoryError:
        return 5
    except OSError:
        return status


if __name__ == "__main__":
    sys.exit(main())
