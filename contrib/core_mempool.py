#!/usr/bin/env python3
"""Turns a Bitcoin Core mempool into command lines of `txgraph replay`.

    bitcoin-cli getrawmempool true > mempool.json
    python3 contrib/core_mempool.py mempool.json > mempool.commands

The output has, for each transaction, a line `add NUMBER FEE VSIZE` and a line `dep PARENT NUMBER` for each parent in the mempool. Parents
come before their children. Fees are in satoshis, sizes in virtual bytes. Numbers rise from 1 in the order of the `add` lines.

A txid is no name that txgraph reads, so a table says which number is which transaction: one line `NUMBER TXID` each. Without --names the
table stands in the output, each line behind `# `, before the `add` that it speaks of: txgraph passes such lines over.

A `dep` that brings a cluster over the limits is refused by txgraph, as `refused count N` or `refused clustersize N`."""
import argparse, decimal, graphlib, json, sys

COIN = 100_000_000


class Unreadable(Exception):
    """The input isn't what `getrawmempool true` answers."""


def satoshis(coins):
    """An amount in bitcoins as whole satoshis."""
    amount = decimal.Decimal(coins) * COIN
    if amount != int(amount):
        raise Unreadable(f"{coins} is no whole number of satoshis")
    return int(amount)


def parents_first(entries):
    """The txids, each behind its parents. The same input gives the same order."""
    sorter = graphlib.TopologicalSorter()
    for txid, entry in entries.items():
        for parent in entry["depends"]:
            if parent not in entries:
                raise Unreadable(f"{txid} depends on {parent}, which isn't there")
        sorter.add(txid, *entry["depends"])
    try:
        return list(sorter.static_order())
    except graphlib.CycleError as error:
        raise Unreadable(f"the dependencies of {error.args[1][0]} make a cycle")


def convert(text, modified=False):
    """Of each transaction, parents first: its number, its txid, and its command lines."""
    try:
        entries = json.loads(text, parse_float=decimal.Decimal)
        if not isinstance(entries, dict):
            raise Unreadable("transactions aren't listed by txid; was it `getrawmempool` without `true`?")
        order = parents_first(entries)
        number = {txid: i for i, txid in enumerate(order, 1)}
        kind = "modified" if modified else "base"
        for txid in order:
            entry = entries[txid]
            lines = [f"add {number[txid]} {satoshis(entry['fees'][kind])} {int(entry['vsize'])}"]
            parents = sorted(number[parent] for parent in set(entry["depends"]))
            yield number[txid], txid, lines + [f"dep {parent} {number[txid]}" for parent in parents]
    except (ValueError, ArithmeticError, AttributeError, TypeError) as error:
        raise Unreadable(error)
    except KeyError as error:
        raise Unreadable(f"a transaction has no {error}")


def main():
    parser = argparse.ArgumentParser(description=__doc__, formatter_class=argparse.RawDescriptionHelpFormatter)
    parser.add_argument("file", nargs="?", help="the JSON that Core answered; without it, standard input is read")
    parser.add_argument("--modified", action="store_true", help="fees as `prioritisetransaction` changed them, in place of the fees paid")
    parser.add_argument("--names", metavar="FILE", help="write the table to this file, and no comments into the output")
    words = parser.parse_args()
    try:
        with open(words.file, encoding="utf-8") if words.file else sys.stdin as source:
            found = list(convert(source.read(), words.modified))
        if words.names:
            with open(words.names, "w", encoding="utf-8") as table:
                table.writelines(f"{number} {txid}\n" for number, txid, _ in found)
        for number, txid, lines in found:
            comment = [] if words.names else [f"# {number} {txid}"]
            print("\n".join(comment + lines))
    except (Unreadable, OSError) as error:
        print(f"core_mempool.py: {error}", file=sys.stderr)
        return 1
    return 0


if __name__ == "__main__":
    sys.exit(main())
