"""The model of the largest inputs on a few transactions; with TXGRAPH=PROGRAM all rows at a hundredth of their size."""
import os
import pathlib
import subprocess
import sys
import tempfile
import unittest

from large_inputs import ROWS, Cluster, Mempool, Replies, Wrong, comments, diagram, filled, full, halves, padded, read_order, trimmed, usual

SCRIPT = pathlib.Path(__file__).resolve().parent / "large_inputs.py"
PROGRAM = os.environ.get("TXGRAPH")


def ran(*words):
    done = subprocess.run([sys.executable, SCRIPT, *words], capture_output=True, text=True)
    return done.stdout, done.returncode


def pool(*txs, first=0):
    made = Mempool(first)
    for tx in txs:
        made.add(*tx)
    return made


class Model(unittest.TestCase):
    def test_dumps(self):
        four = pool((5, 5), (6, 5, [1]), (7, 5, [2, 1]), (8, 5), first=10)
        txs = ["tx 11 5 5", "tx 12 6 5", "tx 13 7 5", "tx 14 8 5"]
        self.assertEqual(list(four.dump()), [*txs, "edge 11 12", "edge 12 13", "end"])
        self.assertEqual(list(four.dump(lambda k: k != 2)), [txs[0], *txs[2:], "edge 11 13", "end"])
        self.assertEqual(list(four.dump({1, 2}.__contains__, front=True)), [*txs[:2], "edge 11 12", "end"])
        self.assertEqual(list(four.made())[:5], ["add 11 5 5", "add 12 6 5", "dep 11 12", "add 13 7 5", "dep 11 13"])
        self.assertEqual(four.components(lambda k: k != 1), [0, 0, 2, 2, 4])

    def test_trim(self):
        # 3 comes before 2 and fills the cluster of 1; so 2 goes, and 4 with it, whatever it pays.
        txs = (9, 1), (1, 1, [1]), (2, 1, [1]), (99, 1, [2])
        self.assertEqual(trimmed(pool(*txs), most=2), {1, 3})
        self.assertEqual(trimmed(pool(*txs), most=4), {1, 2, 3, 4})
        self.assertEqual(trimmed(pool(*txs), most=4, weight=3), {1, 2, 3})
        self.assertEqual(trimmed(pool((1, 1), (1, 1), (1, 1, [1, 2])), most=2), {1, 2})
        self.assertEqual(trimmed(pool((1, 2), (-1, 2)), without=2), {1})

    def test_orders_diagrams_and_blocks(self):
        three = pool((5, 5), (6, 1), (3, 3))
        chunks = read_order(three, ["chunk 6 1 2", "chunk 5 5 1", "chunk 3 3 3"])
        self.assertEqual(diagram(chunks), ["point 0 0", "point 1 6", "point 9 14"])
        self.assertEqual(diagram([]), ["point 0 0"])
        self.assertEqual(filled(chunks, [0, 1, 2, 3], 4), (9, 4, [2, 3]))
        self.assertEqual(filled(chunks, [0, 1, 2, 1], 4), (6, 1, [2]))
        for lines in (["chunk 6 1 2"], ["chunk 6 1 2", "chunk 8 8 3 1", "chunk 5 5 1"], ["chunk 5 5 1", "chunk 6 1 2", "chunk 3 3 3"],
            ["chunk 7 1 2", "chunk 5 5 1", "chunk 3 3 3"], ["refused memory"]):
            with self.subTest(lines), self.assertRaises(Wrong):
                read_order(three, lines)
        with self.assertRaises(Wrong):
            read_order(pool((1, 1), (1, 1, [1])), ["chunk 1 1 2", "chunk 1 1 1"])

    def test_clusters(self):
        cluster = Cluster()
        for name in (1, 2, 3):
            cluster.add(name, 5, 5)
        for pair in [(2, 3), (1, 2), (1, 3)]:
            cluster.dep(*pair)
        cluster.proof()
        self.assertEqual(cluster.wanted[-1][1], {"edge 1 2", "edge 2 3"})
        cluster.remove(2)
        cluster.proof()
        self.assertEqual(cluster.wanted[-1], ({"tx 1 5 5", "tx 3 5 5"}, {"edge 1 3"}))

    def test_lines(self):
        self.assertEqual(full("mine", ["1", "22", "3"], 9), ("mine 1 22", 2))
        self.assertEqual([len(padded(word, 50)) for word in ("add", "dump")], [50, 50])
        self.assertEqual(sum(len(line) + 1 for line in comments(200_000, "end")), 200_000)
        self.assertEqual(list(halves(1, 5, lambda *cut: cut)), [(1, 2, 3), (3, 4, 5), (1, 3, 5)])
        self.assertEqual(list(usual(50, 1).made()), list(usual(50, 1).made()))

    def test_replies(self):
        with tempfile.TemporaryDirectory() as folder:
            path = pathlib.Path(folder) / "written"
            path.write_text("ok\nchunk 5 5 1\nend\nlast")
            replies = Replies(path)
            replies.oks(1)
            self.assertEqual(list(replies.to_end()), ["chunk 5 5 1"])
            with self.assertRaises(Wrong):
                replies.line()
            replies.file.close()


class Runs(unittest.TestCase):
    def test_help_and_status(self):
        self.assertIn("--small", ran("--help")[0])
        self.assertEqual((ran()[1], ran("program", "nothing")[1]), (2, 2))

    @unittest.skipUnless(PROGRAM, "TXGRAPH names no program")
    def test_all_rows_are_right_at_a_hundredth_of_their_size(self):
        said, status = ran(PROGRAM, "--small")
        self.assertEqual([line.split()[:2] for line in said.splitlines()], [["ok", row.__name__] for row in ROWS])
        self.assertEqual(status, 0)

    @unittest.skipUnless(PROGRAM, "TXGRAPH names no program")
    def test_a_program_that_gives_up_is_found_out(self):
        with tempfile.TemporaryDirectory() as folder:
            other = pathlib.Path(folder) / "program"
            other.write_text(f"#!/bin/sh\n'{PROGRAM}' \"$@\" | sed '10000s/.*/refused memory/'\n")
            other.chmod(0o755)
            said, status = ran(str(other), "--small", "adds", "removes", "mine")
        self.assertEqual([line.split()[:2] for line in said.splitlines()], [["wrong", "adds:"], ["wrong", "removes:"], ["ok", "mine"]])
        self.assertEqual(status, 1)


if __name__ == "__main__":
    unittest.main()
