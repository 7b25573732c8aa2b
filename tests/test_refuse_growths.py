"""The judge of runs with a refused request, with a few lines of Python in place of the program."""
import pathlib
import re
import subprocess
import sys
import tempfile
import unittest

from refuse_growths import LONG, MAY_LACK_MEMORY, Otherwise, Run, any_one, by_rate, command, cut, generated, gets_reply, inputs_of
from refuse_growths import judge_generated, judge_of, judge_other, judge_replay, may_lack, read_input, summary

HERE = pathlib.Path(__file__).resolve().parent
LINES = ["add 1 100 200", "# a comment", "add 2 900 200", "add 1 7 7", "stage", "count main", "order main", ""]
ORDER = "chunk 900 200 2\nchunk 100 200 1\nend"


def answer(lines):
    """Transactions without dependencies, each a chunk of its own. `limits` says how many there may be behind `unmine` and `trim`."""
    txs, blocks, most, replies = {}, [], 64, []
    for line in lines:
        words = line.split()
        if not words or words[0] == "#":
            continue
        best = sorted(txs, key=lambda name: (-txs[name][0] / txs[name][1], name))
        if words[0] == "limits":
            most = int(words[1])
            replies.append("ok")
        elif words[0] == "add":
            replies.append("refused taken" if words[1] in txs else "ok")
            txs.setdefault(words[1], (int(words[2]), int(words[3])))
        elif words[0] == "mine":
            blocks.append({name: txs.pop(name) for name in words[1:]})
            replies.append("ok")
        elif words[0] == "unmine":
            back = [name for name in blocks[-1] if name in txs] if blocks else []
            if not blocks or back:
                replies.append(f"refused back {back[0]}" if back else "refused noblock")
            elif len(txs) + len(blocks[-1]) > most:
                replies.append(f"refused count {len(txs) + len(blocks[-1])}")
            else:
                replies.append(" ".join(["unmined", *blocks[-1]]))
                txs.update(blocks.pop())
        elif words[0] == "trim":
            dropped = {name: txs.pop(name) for name in best[most:]}
            replies.append(" ".join(map(str, ["trimmed", *(sum(tx[i] for tx in dropped.values()) for i in (0, 1)), *sorted(dropped)])))
        elif words[0] == "count":
            replies.append(f"count {len(txs)}")
        elif words[0] == "order":
            replies += [f"chunk {txs[name][0]} {txs[name][1]} {name}" for name in best] + ["end"]
        elif words[0] == "dump":
            replies += [f"tx {name} {txs[name][0]} {txs[name][1]}" for name in sorted(txs)] + ["end"]
        elif words[0] == "diagram":
            sums = [(sum(txs[name][i] for name in best[:k]) for i in (1, 0)) for k in range(len(best) + 1)]
            replies += [f"point {size} {fee}" for size, fee in sums] + ["end"]
        else:
            replies.append("ok")
    return Run(0, "".join(f"{reply}\n" for reply in replies))


def run(*replies, status=0):
    return Run(status, "".join(f"{reply}\n" for reply in replies))


class Judge(unittest.TestCase):
    def judge(self, ended, lines=LINES, most=1):
        return judge_replay(lines, ended, answer(lines), answer, most)

    def wrong(self, *given, **named):
        with self.assertRaises(Otherwise):
            self.judge(*given, **named)

    def test_replies_are_cut_by_commands(self):
        self.assertEqual(cut(LINES, answer(LINES).output), ["ok", "ok", "refused taken", "ok", "count 2", ORDER])
        self.assertEqual(cut(["order nowhere", "proof top"], "refused syntax\nend\n"), ["refused syntax", "end"])
        self.assertEqual(cut(["dump\r", "block 9", "trim"], "tx 1 1 1\nend\nblock 0 0\ntrimmed 0 0\n"), ["tx 1 1 1\nend", "block 0 0", "trimmed 0 0"])
        for lines, output in [(["stage"], ""), (["stage"], "ok\nok\n"), (["order main"], "chunk 1 1 1\n"), (["dump"], "tx 1 1 1\n")]:
            with self.subTest(output), self.assertRaises(Otherwise):
                cut(lines, output)

    def test_which_lines_get_a_reply(self):
        for line, wanted in [("", False), ("\r", False), ("# add", False), ("#" * 65_536, False), (" ", True), ("#" * 65_537, True)]:
            with self.subTest(line[:9]):
                self.assertEqual(gets_reply(line), wanted)

    def test_runs_that_end(self):
        self.assertEqual(self.judge(run(status=5)), "ended")
        self.wrong(run("ok", status=5))
        self.wrong(run("ok", "ok", status=0))
        self.wrong(run(status=139))
        self.wrong(run(status=-6))

    def test_nothing_is_lost(self):
        self.assertEqual(self.judge(answer(LINES)), "same")
        self.wrong(run("ok", "ok", "refused taken", "ok", "count 3", ORDER))

    def test_a_refused_command_changes_nothing(self):
        self.assertEqual(self.judge(run("ok", "refused memory", "refused taken", "ok", "count 1", "chunk 100 200 1\nend")), "refused")
        self.wrong(run("ok", "refused memory", "refused taken", "ok", "count 2", "chunk 100 200 1\nend"))
        self.wrong(run("ok", "refused memory", "refused taken", "ok", "count 1", ORDER))
        # The third `add` has its name free where the first was refused.
        self.assertEqual(self.judge(run("refused memory", "ok", "ok", "ok", "count 2", "chunk 900 200 2\nchunk 7 7 1\nend")), "refused")
        self.wrong(run("refused memory", "ok", "refused taken", "ok", "count 2", ORDER))

    def test_a_second_command_is_dropped(self):
        lines = ["add 1 5 5", "add 2 7 7", "mine 1", "count main"]
        self.assertEqual(self.judge(run("ok", "refused memory", "ok", "count 0"), lines), "refused")
        self.wrong(run("ok", "refused memory", "ok", "count 1"), lines)
        self.assertEqual(self.judge(run("ok", "ok", "refused memory", "count 2"), lines), "refused")
        self.wrong(run("ok", "ok", "refused memory", "count 1"), lines)

    def test_blocks(self):
        lines = ["add 1 5 5", "add 2 7 7", "mine 1", "mine 2", "unmine", "unmine", "count main"]
        for rest in [("ok", "refused memory", "unmined 2", "count 1"), ("refused memory", "unmined 1", "refused noblock", "count 2")]:
            with self.subTest(rest):
                self.assertEqual(self.judge(run("ok", "ok", "ok", *rest), lines), "refused")
        for rest in [
            ("ok", "refused memory", "unmined 1", "count 1"),
            ("ok", "refused memory", "refused noblock", "count 0"),
            ("ok", "refused memory", "unmined 2", "count 2"),
            ("refused memory", "unmined 2", "unmined 1", "count 2"),
            ("ok", "unmined 2", "refused memory", "count 2"),
        ]:
            with self.subTest(rest):
                self.wrong(run("ok", "ok", "ok", *rest), lines)

    def test_refusals_that_give_way(self):
        lines = ["limits 1", "add 1 5 5", "mine 1", "add 2 7 7", "unmine", "count main"]
        self.assertEqual(self.judge(run("ok", "ok", "ok", "ok", "refused memory", "count 1"), lines), "refused")
        self.wrong(run("ok", "ok", "ok", "ok", "refused memory", "count 2"), lines)
        self.wrong(run("ok", "ok", "ok", "refused memory"), ["add 1 5 5", "mine 1", "add 1 6 6", "unmine"])
        self.wrong(run("ok", "refused memory"), ["add 1 5 5", "unmine"])

    def test_trim(self):
        lines = ["limits 1", "add 1 1 1", "add 2 5 1", "trim", "order main"]
        first, second = "chunk 5 1 2", "chunk 1 1 1"
        self.assertEqual(self.judge(run("ok", "ok", "ok", "refused memory", first, second, "end"), lines), "refused")
        self.assertEqual(self.judge(run("ok", "ok", "refused memory", "trimmed 0 0", second, "end"), lines), "refused")
        self.wrong(run("ok", "ok", "ok", "refused memory", first, "end"), lines)
        self.wrong(run("ok", "ok", "refused memory", "trimmed 1 1 1", "end"), lines)

    def test_dumps(self):
        lines = ["add 2 900 200", "add 1 100 200", "dump", "count main"]
        first, second = "tx 1 100 200", "tx 2 900 200"
        self.assertEqual(self.judge(run("ok", "ok", first, second, "end", "count 2"), lines), "same")
        self.assertEqual(self.judge(run("ok", "ok", "refused memory", "count 2"), lines), "refused")
        self.assertEqual(self.judge(run("ok", "refused memory", second, "end", "count 1"), lines), "refused")
        self.wrong(run("ok", "ok", first), lines)
        self.wrong(run("ok", "ok", first, "end", "count 2"), lines)
        self.wrong(run("ok", "ok", first, "refused memory", "count 2"), lines)
        self.wrong(run("ok", "ok", first, "refused memory", "end", "count 2"), lines)
        self.wrong(run("ok", "refused memory", first, second, "end", "count 1"), lines)

    def test_what_may_lack_memory(self):
        self.wrong(run("ok", "ok", "refused taken", "refused memory", "count 2", ORDER))
        self.wrong(run("ok", "ok", "refused taken", "ok", "count 2", "refused memory"))

    def test_which_answers_want_of_memory_may_replace(self):
        for line, reply, wanted in [
            ("trim", "trimmed 0 0", True),
            ("dump\r", "tx 1 1 1\nend", True),
            ("unmine", "unmined 1", True),
            ("unmine", "refused count 3", True),
            ("unmine", "refused clustersize 9", True),
            ("unmine", "refused full", False),
            ("unmine", "refused back 1", False),
            ("unmine 1", "refused syntax", False),
            ("dep 1 2", "refused count 3", False),
            ("add 1 1 9", "refused clustersize 9", False),
            ("block 9", "refused oversized", False),
            ("dump", "refused", False),
            ("stage", "ok", False),
            ("load", "refused syntax", False),
        ]:
            with self.subTest(f"{line}: {reply}"):
                self.assertEqual(may_lack(line, reply), wanted)

    def test_the_protocol_has_the_same_commands(self):
        text = (HERE.parent / "docs" / "PROTOCOL.md").read_text()
        rows = re.findall(r"^\| (`.*?) \| (.*) \|$", text.split("## Refusals")[1].split("## Limits")[0], re.M)
        self.assertEqual({word for words, causes in rows if "`memory`" in causes for word in re.findall(r"`(\w+)`", words)}, MAY_LACK_MEMORY)
        rows = re.findall(r"^\| (`.*?) \| (.*) \|$", text.split("## Commands")[1].split("## Refusals")[0], re.M)
        self.assertEqual({word for words, reply in rows if "`end`" in reply or "text" in reply for word in re.findall(r"`(\w+)", words)}, LONG)

    def test_no_other_reason_holds(self):
        self.wrong(run("ok", "ok", "refused memory", "ok", "count 2", ORDER))

    def test_how_many_are_refused(self):
        twice = run("refused memory", "refused memory", "ok", "ok", "count 1", "chunk 7 7 1\nend")
        self.wrong(twice)
        self.assertEqual(self.judge(twice, most=None), "refused")

    def test_the_order_of_equal_rates(self):
        lines = ["add 3 5 5", "add 1 10 10", "add 2 20 20", "order main"]
        first, second = "chunk 10 10 1", "chunk 20 20 2"
        self.assertEqual(self.judge(run("refused memory", "ok", "ok", first, second, "end"), lines), "refused")
        self.assertEqual(self.judge(run("refused memory", "ok", "ok", second, first, "end"), lines), "reordered")
        self.wrong(run("refused memory", "ok", "ok", second, second, "end"), lines)
        self.wrong(run("refused memory", "ok", "ok", second, "end"), lines)
        self.assertNotEqual(by_rate(f"{first}\nchunk 10 20 3\nend"), by_rate(f"chunk 10 20 3\n{first}\nend"))

    def test_other_words(self):
        proof = run("tx 1 1 1", "tx 2 1 1", "chunk 1 1 1", "chunk 1 1 2", "end")
        for plain in [run("yes"), run("no limits", status=1), proof]:
            self.assertEqual((judge_other(run(status=5), plain), judge_other(plain, plain)), ("ended", "same"))
            for ended in [
                run("no flow", status=1),
                run("yes", status=5),
                run(),
                run("no limits"),
                run("no graph", status=1),
                run("tx 1 1 1", "tx 2 1 1", "chunk 1 1 2", "chunk 1 1 1", "end"),
                run("tx 1 1 1", "tx 2 1 1", "chunk 1 1 1"),
                run("tx 1 1 1", status=5),
                run("refused memory"),
            ]:
                with self.subTest(ended), self.assertRaises(Otherwise):
                    judge_other(ended, plain)
        with self.assertRaises(Otherwise):
            judge_other(run("no limits", status=1), proof)


class Generated(unittest.TestCase):
    def test_the_commands_of_a_seed(self):
        self.assertEqual(generated(7, 0), [])
        self.assertEqual(generated(1, 5), ["abort", "abort", "dep 1 2", "add 4 2010 319", "dep 3 4"])
        kinds = {line.split()[0] for line in generated(1, 200)}
        self.assertEqual(kinds, {"add", "dep", "fee", "remove", "stage", "commit", "abort", "compare"})

    def test_summaries(self):
        lines = ["add 1 10 10", "add 2 30 10", "add 1 7 7"]
        plain = Run(0, summary(lines, answer, 0))
        self.assertEqual(plain.output, "accepted 2\nrefused 1\nmemory 0\ncount 2\ntotal 40 20\ncorners 3\n")

        def judge(output):
            return judge_generated(lines, Run(0, output), plain, answer, any_one(lines, answer))

        self.assertEqual(judge(plain.output), "same")
        self.assertEqual(judge("accepted 2\nrefused 0\nmemory 1\ncount 2\ntotal 37 17\ncorners 3\n"), "refused")
        for output in [plain.output.replace("memory 0", "memory 1"), "accepted 2\nrefused 0\nmemory 1\ncount 2\ntotal 40 20\ncorners 3\n", ""]:
            with self.subTest(output), self.assertRaises(Otherwise):
                judge(output)
        self.assertEqual(judge_generated(lines, Run(5, ""), plain, answer, []), "ended")

    def test_commands_that_lack_memory_together(self):
        lines = ["add 1 10 10", "add 2 30 10", "add 1 7 7"]
        plain, both = Run(0, summary(lines, answer, 0)), Run(0, "accepted 1\nrefused 0\nmemory 2\ncount 1\ntotal 7 7\ncorners 2\n")
        self.assertEqual(judge_generated(lines, both, plain, answer, [{0}, {0, 1}]), "refused")
        for lacking in [[], [{0, 2}], any_one(lines, answer)]:
            with self.subTest(lacking), self.assertRaises(Otherwise):
                judge_generated(lines, both, plain, answer, lacking)


class Made:
    """A program whose runs are made up."""

    all_later = True

    def __init__(self, *runs):
        self.made, self.answer = runs, answer

    def runs(self, words, text):
        yield from ((run, True) for run in self.made)
        yield answer(text.decode().split("\n")), False


class Inputs(unittest.TestCase):
    def test_the_kinds_of_inputs(self):
        self.assertEqual(read_input("gen:1:5"), (["gen", "1", "5"], b""))
        self.assertEqual(read_input("lines:1:3"), (["replay"], b"abort\nabort\ndep 1 2\n"))
        self.assertEqual(read_input(str(HERE.parent / "contrib/samples/replacement.commands"))[0], ["replay"])

    def test_the_folders(self):
        read = {pathlib.Path(word).name: read_input(word) for word in inputs_of(str(HERE / "growths"))}
        self.assertEqual(set(read), {path.name for path in (HERE / "growths").iterdir()})
        self.assertEqual(read["two_hundred_drawn_commands"], (["gen", "1", "200"], b""))
        self.assertEqual({words[0] for words, _ in read.values()}, {"replay", "check", "load", "gen"})
        lines = [line for words, text in read.values() if words == ["replay"] for line in text.decode().splitlines()]
        self.assertLessEqual(MAY_LACK_MEMORY - {"fee"}, {command(line) for line in lines})
        self.assertIn("fee", {command(line) for line in generated(1, 200)})
        one = str(HERE / "growths" / "a_dump_is_loaded")
        self.assertEqual(inputs_of(one), [one])

    def test_which_judge(self):
        lines = ["add 1 5 5", "unmine", "dump"]
        text = "\n".join(lines).encode()
        judge = judge_of(Made(), ["replay"], text, answer(lines))
        self.assertEqual(judge(run("refused memory", "refused noblock", "refused memory")), "refused")
        for word in ["load", "check", "replay more"]:
            with self.subTest(word), self.assertRaises(Otherwise):
                judge_of(Made(), word.split(), text, answer(lines))(run("refused memory", "refused noblock", "refused memory"))

    def test_generated_commands_by_the_runs_of_their_lines(self):
        def later(line, reply):
            return "refused memory" if may_lack(line, reply) and line not in lines[:5] else reply

        lines = generated(1, 12)
        replies = [later(line, reply) for line, reply in zip(lines, cut(lines, answer(lines).output))]
        lost = [line for line, reply in zip(lines, replies) if reply == "refused memory"]
        plain, ended = Run(0, summary(lines, answer, 0)), Run(0, summary([line for line in lines if line not in lost], answer, len(lost)))
        self.assertGreater(len(lost), 1)
        self.assertEqual(judge_of(Made(run(status=5), run(*replies)), ["gen", "1", "12"], b"", plain)(ended), "refused")
        for runs in [(), (run(status=5),), (run(*replies, "ok"),)]:
            with self.subTest(runs), self.assertRaises(Otherwise):
                judge_of(Made(*runs), ["gen", "1", "12"], b"", plain)(ended)
        self.assertEqual(judge_of(Made(), ["gen", "x"], b"", run("usage", status=2))(run("usage", status=2)), "same")


class Words(unittest.TestCase):
    def test_help_and_status(self):
        def ran(*words):
            return subprocess.run([sys.executable, HERE / "refuse_growths.py", *words], capture_output=True, text=True)

        self.assertIn("for n = 1, 2, 3", ran("--help").stdout.lower())
        self.assertEqual((ran().returncode, ran("--unknown", "x").returncode), (2, 2))
        with tempfile.TemporaryDirectory() as folder:
            self.assertEqual(ran("program", folder).returncode, 2)


if __name__ == "__main__":
    unittest.main()
