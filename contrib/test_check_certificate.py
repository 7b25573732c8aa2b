"""Worked texts with their answers, and a proof of 20,000 transactions. With TXGRAPH=PROGRAM the program is asked as well."""
import fractions
import os
import pathlib
import random
import subprocess
import sys
import unittest

import check_certificate

HERE = pathlib.Path(__file__).resolve().parent
SCRIPT = HERE / "check_certificate.py"
PROGRAM = os.environ.get("TXGRAPH")

PAIR = "tx 1 100 200\ntx 2 900 200\nedge 1 2\nchunk 1000 400 1 2\nflow 2 1 160000\nend\n"
THREE = "tx 1 0 10\ntx 2 6 5\ntx 3 6 5\nedge 1 2\nedge 1 3\nchunk 12 20 1 2 3\nflow 2 1 60\nflow 3 1 60\nend\n"
ROWS = {
    "the pair": (PAIR, "yes"),
    "no transaction": ("end\n", "yes"),
    "no last line feed, and carriage returns": (PAIR.replace("\n", "\r\n")[:-2], "yes"),
    "comments and empty lines, also after the end": ("# a\n\n" + PAIR + "\r\n#\n", "yes"),
    "a transaction without a dependency": ("tx 1 -5 1\nchunk -5 1 1\nend\n", "yes"),
    "two children pay for their parent": (THREE, "yes"),
    "flow along an edge that others imply": (
        "tx 1 0 1\ntx 2 1 1\ntx 3 2 1\nedge 1 2\nedge 2 3\nedge 1 3\nchunk 3 3 1 2 3\nflow 3 1 3\nend\n", "yes"),
    "nothing at all": ("", "no syntax"),
    "no end": ("tx 1 1 1\nchunk 1 1 1\n", "no syntax"),
    "two ends": ("end\nend\n", "no syntax"),
    "two spaces": (PAIR.replace("tx 1 ", "tx 1  "), "no syntax"),
    "a space at the end": (PAIR.replace("edge 1 2", "edge 1 2 "), "no syntax"),
    "a zero in front": (PAIR.replace("tx 1", "tx 01"), "no syntax"),
    "a plus sign": (PAIR.replace("900", "+900"), "no syntax"),
    "minus zero": ("tx 1 -0 1\nchunk 0 1 1\nend\n", "no syntax"),
    "a word that is none": (PAIR.replace("flow", "flows"), "no syntax"),
    "a name past 64 bits": ("tx 18446744073709551616 1 1\nend\n", "no syntax"),
    "a fee past 64 bits": ("tx 1 9223372036854775808 1\nend\n", "no syntax"),
    "a chunk without names": ("chunk 0 0\nend\n", "no syntax"),
    "a chunk's fee at its most": (f"tx 1 1 1\nchunk {10**30} 1 1\nend\n", "no falling"),
    "a chunk's fee past its most": (f"tx 1 1 1\nchunk {10**30 + 1} 1 1\nend\n", "no syntax"),
    "a flow of 0": (PAIR.replace("160000", "0"), "no syntax"),
    "an edge before a transaction": ("tx 1 1 1\nedge 1 2\ntx 2 1 1\nend\n", "no syntax"),
    "a flow before any chunk": ("tx 1 1 1\nflow 1 1 1\nend\n", "no syntax"),
    "a line of 65,536 bytes": ("#" * 65_536 + "\nend\n", "yes"),
    "a line of 65,537 bytes": ("#" * 65_537 + "\nend\n", "no syntax"),
    "a transaction twice": ("tx 1 1 1\ntx 1 1 1\nchunk 1 1 1\nend\n", "no graph"),
    "a fee over the limit": ("tx 1 2100000000000001 1\nchunk 2100000000000001 1 1\nend\n", "no graph"),
    "a size of 0": ("tx 1 1 0\nchunk 1 0 1\nend\n", "no graph"),
    "an edge of an unknown name": (PAIR.replace("edge 1 2", "edge 1 3"), "no graph"),
    "an edge twice": (PAIR.replace("edge 1 2", "edge 1 2\nedge 1 2"), "no graph"),
    "an edge to itself": ("tx 1 1 1\nedge 1 1\nchunk 1 1 1\nend\n", "no graph"),
    "a cycle": ("tx 1 1 1\ntx 2 1 1\nedge 1 2\nedge 2 1\nchunk 2 2 1 2\nend\n", "no graph"),
    "a cycle and an order that lacks a name": ("tx 1 1 1\ntx 2 1 1\nedge 1 2\nedge 2 1\nchunk 1 1 1\nend\n", "no graph"),
    "the child first": (PAIR.replace("400 1 2", "400 2 1"), "no order"),
    "a name in no chunk": ("tx 1 1 1\nend\n", "no order"),
    "a name in two chunks": ("tx 1 1 1\nchunk 1 1 1\nchunk 1 1 1\nend\n", "no order"),
    "an unknown name in a chunk": ("tx 1 1 1\nchunk 2 2 1 2\nend\n", "no order"),
    "two components in a chunk": ("tx 1 1 1\ntx 2 2 2\nchunk 3 3 1 2\nend\n", "no order"),
    "rates that rise": ("tx 1 1 1\ntx 2 2 1\nchunk 1 1 1\nchunk 2 1 2\nend\n", "no falling"),
    "a sum that is wrong": (PAIR.replace("chunk 1000", "chunk 1001"), "no falling"),
    "a size that is wrong": (PAIR.replace("1000 400", "1000 0"), "no falling"),
    "a flow too small": (PAIR.replace("160000", "159999"), "no flow"),
    "a flow in two lines": (PAIR.replace("160000", "80000\nflow 2 1 80000"), "no flow"),
    "a flow down to the child": (PAIR.replace("flow 2 1", "flow 1 2"), "no flow"),
    "a flow without an edge": (THREE.replace("2 1 60", "2 1 120").replace("3 1 60", "3 2 60"), "no flow"),
    "a flow to an unknown name": (PAIR.replace("flow 2 1", "flow 2 3"), "no flow"),
    "a flow from another chunk": (
        "tx 1 2 1\ntx 2 1 1\nedge 1 2\nchunk 2 1 1\nchunk 1 1 2\nflow 2 1 1\nend\n", "no flow"),
    "no flow where one is due": (PAIR.replace("flow 2 1 160000\n", ""), "no flow"),
}


def chains(count, seed):
    """The lines of a certificate for chains of up to 64 transactions, which have one order each: a chunk is closed where it can't gain."""
    draw, txs, edges, chunks = random.Random(seed), [], [], []
    while len(txs) < count:
        chain = range(len(txs) + 1, min(len(txs) + draw.randint(1, 64), count) + 1)
        parts = []
        for name in chain:
            txs.append((name, draw.randint(-100, 9_000), draw.randint(60, 900)))
            part = [txs[-1]]
            while parts and sum(t[1] for t in part) * sum(t[2] for t in parts[-1]) > sum(t[1] for t in parts[-1]) * sum(t[2] for t in part):
                part = parts.pop() + part
            parts.append(part)
        edges += [(name, name + 1) for name in chain[:-1]]
        chunks += parts
    rates = [(sum(t[1] for t in part), sum(t[2] for t in part)) for part in chunks]
    order = sorted(range(len(chunks)), key=lambda i: (-fractions.Fraction(*rates[i]), i))
    lines = ["tx %d %d %d" % tx for tx in txs] + ["edge %d %d" % edge for edge in edges]
    for i in order:
        fee, size = rates[i]
        lines.append(f"chunk {fee} {size} " + " ".join(str(name) for name, _, _ in chunks[i]))
        lacking = 0
        for name, own_fee, own_size in chunks[i][:-1]:
            lacking += fee * own_size - size * own_fee
            if lacking:
                lines.append(f"flow {name + 1} {name} {lacking}")
    return lines + ["end"]


def drawn_commands(count, seed):
    """Command lines that add transactions in clusters of up to 40 with one to three parents each, and ask for the proof."""
    draw, lines, clusters = random.Random(seed), [], []
    for name in range(1, count + 1):
        size = draw.randint(110, 900)
        lines.append(f"add {name} {size * draw.randint(1, 60)} {size}")
        if clusters and draw.random() < 0.85:
            cluster = draw.choice(clusters)
            lines += [f"dep {parent} {name}" for parent in {draw.choice(cluster) for _ in range(draw.randint(1, 3))}]
            cluster.append(name)
            if len(cluster) >= draw.randint(2, 40):
                clusters.remove(cluster)
        else:
            clusters = clusters[-39:] + [[name]]
    return "\n".join(lines + ["proof main", ""])


def asked(words, text):
    """What a program answers to a text, and its exit status."""
    done = subprocess.run(words, input=text.encode(), capture_output=True)
    return done.stdout.decode(), done.returncode


class Answers(unittest.TestCase):
    def test_worked_texts_get_their_answers(self):
        for name, (text, answer) in ROWS.items():
            with self.subTest(name):
                self.assertEqual(check_certificate.answer(text.encode()), answer)

    def test_a_proof_of_20000_transactions_is_accepted_and_each_change_of_a_flow_refused(self):
        lines = chains(20_000, 1)
        self.assertEqual(sum(line.startswith("tx ") for line in lines), 20_000)
        self.assertEqual(check_certificate.answer("\n".join(lines).encode()), "yes")
        flows = [i for i, line in enumerate(lines) if line.startswith("flow ")]
        for i in random.Random(2).sample(flows, 2):
            word, child, parent, amount = lines[i].split()
            changed = lines[:i] + [f"{word} {child} {parent} {int(amount) + 1}"] + lines[i + 1 :]
            self.assertEqual(check_certificate.answer("\n".join(changed).encode()), "no flow")

    def test_statuses(self):
        sample = HERE / "samples" / "pair.certificate"
        self.assertEqual(sample.read_text(), PAIR)
        self.assertEqual(asked([sys.executable, SCRIPT, sample], ""), ("yes\n", 0))
        self.assertEqual(asked([sys.executable, SCRIPT], PAIR), ("yes\n", 0))
        self.assertEqual(asked([sys.executable, SCRIPT], "end\nend\n"), ("no syntax\n", 1))
        self.assertEqual(asked([sys.executable, SCRIPT, "a", "b"], "")[1], 2)
        self.assertEqual(asked([sys.executable, SCRIPT, HERE / "no such file"], ""), ("", 3))
        shown, status = asked([sys.executable, SCRIPT, "--help"], "")
        self.assertTrue("no falling" in shown and status == 0)

    @unittest.skipUnless(PROGRAM, "TXGRAPH names no program")
    def test_the_program_answers_the_same(self):
        for name, (text, answer) in ROWS.items():
            with self.subTest(name):
                self.assertEqual(asked([PROGRAM, "check"], text), (answer + "\n", int(answer != "yes")))

    @unittest.skipUnless(PROGRAM, "TXGRAPH names no program")
    def test_a_proof_of_20000_transactions_by_the_program_is_accepted(self):
        replies, status = asked([PROGRAM, "replay"], drawn_commands(20_000, 3))
        text = "".join(line for line in replies.splitlines(True) if line != "ok\n")
        self.assertEqual((status, text.count("tx ")), (0, 20_000))
        self.assertEqual(check_certificate.answer(text.encode()), "yes")
        self.assertEqual(asked([PROGRAM, "check"], text), ("yes\n", 0))


if __name__ == "__main__":
    unittest.main()
