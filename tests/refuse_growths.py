#!/usr/bin/env python3
"""Refuses each request for memory of a built txgraph in turn, and judges what the program then answers.

    python3 tests/refuse_growths.py PROGRAM [INPUT ..]

An INPUT is a file of lines for `replay`; a folder with the files `args` (one word a line) and `stdin` (none: no input); a folder of such
folders; `gen:SEED:COUNT` (those generated commands, by `gen`); or `lines:SEED:COUNT` (the same commands as lines of `replay`). Without one:
all of tests/growths, the sample of contrib/, and `lines:1:200`.

The program asks for memory by `malloc` and `realloc` of the C library alone. A small library, made here by `cc` and loaded before that one,
answers the nth request by "no memory" and all others as ever. For n = 1, 2, 3 .. the program runs once, until a run has no nth request. With
--all-later each request behind the nth is refused too. Each run must end in one of these ways:

    ended      exit status 5 and no output
    same       status and output as where nothing is refused
    refused    `replay`: some commands that may be so answered are answered `refused memory`, exactly one where one request was refused.
               The same program, nothing refused, accepts each of them at its place, or refuses it for a reason in whose place want of
               memory may be told (`unmine` alone has such); and it answers the input without them by just the other replies. `gen`: the
               summary counts so many refusals for want of memory, and is otherwise that of the commands without one of those that may
               be so answered; with --all-later, without those that lacked memory together in a run of `replay` over the same commands.
    reordered  as `refused`, but for the order of chunks of equal rate in replies to `order` and `proof`: where replies differ there, it
               compares of each rate the fee, the size and the names, and of `proof` also the transactions and the edges, but no flows.
               All other replies are compared byte for byte.

`check` and `load`, which answer their input as a whole, have only the first two ways. Any other run is shown, and the exit status is then 1."""
import argparse, collections, fractions, itertools, os, pathlib, subprocess, sys, tempfile

# Commands that may be answered `refused memory`, the refusals in whose place that may be told, and the commands whose reply ends with a line
# `end`: docs/PROTOCOL.md has them.
MAY_LACK_MEMORY = {"add", "dep", "fee", "remove", "mine", "evict", "block", "trim", "unmine", "dump"}
GIVE_WAY = {("unmine", "count"), ("unmine", "clustersize")}
LONG = {"order", "diagram", "proof", "dump"}
NO_MEMORY = "refused memory"
LONGEST = 65_536
WAYS = ["ended", "same", "refused", "reordered"]
ROOT = pathlib.Path(__file__).resolve().parent.parent
USUAL = [str(ROOT / "tests" / "growths"), str(ROOT / "contrib" / "samples" / "replacement.commands"), "lines:1:200"]

LIBRARY = r"""
#include <errno.h>
#include <stdlib.h>
#include <unistd.h>
extern void *__libc_malloc(size_t);
extern void *__libc_realloc(void *, size_t);
static long requests, at, tell;
static int all;
static int refused(void) {
    if (!at) {
        const char *words[] = {getenv("REFUSE_AT"), getenv("REFUSE_TELL"), getenv("REFUSE_ALL")};
        at = words[0] ? atol(words[0]) : -1;
        tell = words[1] ? atol(words[1]) : -1;
        all = words[2] != 0;
    }
    requests++;
    if (at < 0 || (all ? requests < at : requests != at)) return 0;
    if (requests == at && tell >= 0 && write(tell, "x", 1) != 1) abort();
    errno = ENOMEM;
    return 1;
}
void *malloc(size_t size) { return refused() ? 0 : __libc_malloc(size); }
void *realloc(void *from, size_t size) { return refused() ? 0 : __libc_realloc(from, size); }
"""

Run = collections.namedtuple("Run", "status output")


class Otherwise(Exception):
    """A run that ended in none of the ways."""


# ---- the judge: it sees lines, outputs and statuses, and asks for answers by a function that it is given


def gets_reply(line):
    return len(line) > LONGEST or line not in ("", "\r") and not line.startswith("#")


def command(line):
    """The first word of a line."""
    return line.removesuffix("\r").split(" ")[0]


def cut(lines, output):
    """The reply to each line that gets one."""
    rest = collections.deque(output.splitlines())
    replies = []
    for line in lines:
        if not gets_reply(line):
            continue
        if not rest:
            raise Otherwise(f"no reply to `{line}`")
        reply = [rest.popleft()]
        if command(line) in LONG and not reply[0].startswith("refused"):
            while reply[-1] != "end":
                if not rest:
                    raise Otherwise(f"the reply to `{line}` has no end")
                reply.append(rest.popleft())
        replies.append("\n".join(reply))
    if rest:
        raise Otherwise(f"{len(rest)} lines too many")
    return replies


def by_rate(reply):
    """What a reply to `order` or `proof` says, whatever the order of chunks of equal rate is."""
    lines = [line.split() for line in reply.splitlines()]
    rates = []
    for words in lines:
        if words[0] == "chunk":
            fee, size = int(words[1]), int(words[2])
            rate = fractions.Fraction(fee, size)
            if not rates or rates[-1][0] != rate:
                rates.append((rate, 0, 0, []))
            _, fees, sizes, names = rates[-1]
            rates[-1] = (rate, fees + fee, sizes + size, sorted(names + words[3:]))
    return rates, sorted(words for words in lines if words[0] in ("tx", "edge"))


def may_lack(line, reply):
    """Whether a line may be answered `refused memory` that is answered so where nothing is refused."""
    words = reply.split(" ")
    return command(line) in MAY_LACK_MEMORY and (words[0] != "refused" or (command(line), *words[1:2]) in GIVE_WAY)


def judge_replay(lines, run, plain, answer, most=1):
    """How a run of `replay` ended. `plain` is the run with nothing refused; `answer` gives that of other lines; at most so many refused."""
    if run.status == 5 and not run.output:
        return "ended"
    if run == plain:
        return "same"
    if run.status != plain.status:
        raise Otherwise(f"exit status {run.status}")
    lines = [line for line in lines if gets_reply(line)]
    replies = cut(lines, run.output)
    lacking = [i for i, reply in enumerate(replies) if reply == NO_MEMORY]
    if not lacking or most is not None and len(lacking) > most:
        raise Otherwise(f"{len(lacking)} commands were answered `{NO_MEMORY}`")
    for i in lacking:
        before = [line for k, line in enumerate(lines[: i + 1]) if k == i or k not in lacking]
        if not may_lack(lines[i], reply := cut(before, answer(before).output)[-1]):
            raise Otherwise(f"`{lines[i]}` is answered `{NO_MEMORY}`, and nothing refused\n{reply}")
    kept = [line for i, line in enumerate(lines) if i not in lacking]
    given = [reply for i, reply in enumerate(replies) if i not in lacking]
    other = answer(kept)
    if other.status != run.status:
        raise Otherwise(f"without the refused lines the exit status is {other.status}")
    way = "refused"
    for line, reply, wanted in zip(kept, given, cut(kept, other.output)):
        if reply != wanted:
            if command(line) not in ("order", "proof") or by_rate(reply) != by_rate(wanted):
                raise Otherwise(f"`{line}` is answered\n{reply}\nand without the refused lines\n{wanted}")
            way = "reordered"
    return way


def generated(seed, count):
    """The commands of `gen`, as docs/PROTOCOL.md tells them."""
    state = seed

    def draw(below):
        nonlocal state
        state = (1103515245 * state + 12345) % 2**31
        return state // 65536 % below

    lines = []
    for k in range(1, count + 1):
        kind = draw(20)
        if kind < 8:
            fee = draw(10000) - 1000
            lines.append(f"add {k} {fee} {100 + draw(900)}")
        elif kind < 14:
            child = k - draw(min(k, 64))
            lines.append(f"dep {child - draw(min(child, 64))} {child}")
        elif kind == 14:
            name = k - draw(min(k, 64))
            lines.append(f"fee {name} {draw(10000) - 1000}")
        elif kind == 15:
            lines.append(f"remove {k - draw(min(k, 64))}")
        else:
            lines.append(["stage", "commit", "abort", "compare"][kind - 16])
    return lines


def summary(lines, answer, memory):
    """What `gen` writes at the end, where these are all commands but so many, which lacked memory."""
    ends = ["count main", "diagram main"]
    replies = cut(lines + ends, answer(lines + ends).output)
    refused = sum(reply.startswith("refused") for reply in replies[:-2])
    points = [line.split() for line in replies[-1].splitlines()[:-1]]
    return "".join(
        f"{line}\n"
        for line in [
            f"accepted {len(lines) - refused}",
            f"refused {refused}",
            f"memory {memory}",
            replies[-2],
            f"total {points[-1][2]} {points[-1][1]}",
            f"corners {len(points)}",
        ]
    )


def any_one(lines, answer):
    """Each place of a command that may lack memory."""
    return [{i} for i, (line, reply) in enumerate(zip(lines, cut(lines, answer(lines).output))) if may_lack(line, reply)]


def judge_generated(lines, run, plain, answer, lacking):
    """How a run of `gen` ended. `lacking` are sets of places: of commands that may lack memory together."""
    if run.status == 5 and not run.output:
        return "ended"
    if plain.output != summary(lines, answer, 0):
        raise Otherwise(f"nothing refused, `gen` writes\n{plain.output}and `replay` would\n{summary(lines, answer, 0)}")
    if run == plain:
        return "same"
    if run.status == plain.status:
        for places in lacking:
            kept = [line for i, line in enumerate(lines) if i not in places]
            if run.output == summary(kept, answer, len(places)):
                return "refused"
    raise Otherwise(f"exit status {run.status}, and a summary of no such commands:\n{run.output}")


def judge_other(run, plain):
    """How a run of `check` or `load`, or of words that are no command, ended: the answer is the whole one, or there is none."""
    if run.status == 5 and not run.output:
        return "ended"
    if run == plain:
        return "same"
    raise Otherwise(f"exit status {run.status}\n{run.output}")


# ---- the runs


class Program:
    def __init__(self, path, library, all_later):
        self.path, self.library, self.all_later, self.known = str(path), str(library), all_later, {}

    def run(self, words, text, at=None):
        """A run, and whether its request `at` came and was refused."""
        read, write = os.pipe()
        given = dict(os.environ)
        if at is not None:
            given.update(LD_PRELOAD=self.library, REFUSE_AT=str(at), REFUSE_TELL=str(write))
            given.update({"REFUSE_ALL": "1"} if self.all_later else {})
        try:
            done = subprocess.run([self.path, *words], input=text, capture_output=True, env=given, pass_fds=[write], timeout=60)
            run = Run(done.returncode, done.stdout.decode(errors="replace"))
        except subprocess.TimeoutExpired:
            if at is None:
                raise
            run = Run("none within a minute", "")
        finally:
            os.close(write)
            told = os.read(read, 1)
            os.close(read)
        return run, told == b"x"

    def answer(self, lines):
        """What `replay` answers to lines, nothing refused."""
        text = "".join(line + "\n" for line in lines)
        if text not in self.known:
            self.known[text] = self.run(["replay"], text.encode("latin-1"))[0]
        return self.known[text]

    def runs(self, words, text):
        """The runs in which a request was refused, the first request first, and then one that has no such request; and which it is."""
        was_refused = True
        for at in itertools.count(1):
            if not was_refused:
                return
            run, was_refused = self.run(words, text, at)
            yield run, was_refused


def inputs_of(word):
    """The inputs that a word names: of a folder without `args` the folders in it."""
    path = pathlib.Path(word)
    if path.is_dir() and not (path / "args").exists():
        return [str(args.parent) for args in sorted(path.glob("*/args"))]
    return [word]


def read_input(word):
    """The program's words, and its input."""
    kind, *numbers = word.split(":")
    if kind == "gen" and len(numbers) == 2:
        return ["gen", *numbers], b""
    if kind == "lines" and len(numbers) == 2:
        return ["replay"], "".join(f"{line}\n" for line in generated(*map(int, numbers))).encode()
    path = pathlib.Path(word)
    if not path.is_dir():
        return ["replay"], path.read_bytes()
    stdin = path / "stdin"
    return (path / "args").read_text().splitlines(), stdin.read_bytes() if stdin.exists() else b""


def lacking_together(program, lines):
    """The places of the commands that lack memory in each run of `replay` over these lines."""
    for run, _ in program.runs(["replay"], "".join(f"{line}\n" for line in lines).encode()):
        try:
            if judge_replay(lines, run, program.answer(lines), program.answer, None) in ("refused", "reordered"):
                yield {i for i, reply in enumerate(cut(lines, run.output)) if reply == NO_MEMORY}
        except Otherwise:
            continue


def judge_of(program, words, text, plain):
    """What tells how a run over an input ended."""
    if words == ["replay"]:
        lines, most = text.decode("latin-1").split("\n"), None if program.all_later else 1
        return lambda run: judge_replay(lines, run, plain, program.answer, most)
    if words[:1] == ["gen"] and plain.status == 0:
        lines = generated(*map(int, words[1:]))
        lacking = list(lacking_together(program, lines)) if program.all_later else any_one(lines, program.answer)
        return lambda run: judge_generated(lines, run, plain, program.answer, lacking)
    return lambda run: judge_other(run, plain)


def try_all(program, word):
    """How often each way was seen, and the runs that ended otherwise."""
    words, text = read_input(word)
    plain, _ = program.run(words, text)
    judge, ways, wrong = judge_of(program, words, text, plain), collections.Counter(), []
    for at, (run, was_refused) in enumerate(program.runs(words, text), 1):
        try:
            if was_refused:
                ways[judge(run)] += 1
            elif run != plain:
                raise Otherwise("none such came, and the run is another")
        except Otherwise as error:
            wrong.append(f"{word}: request {at}: {error}")
    return ways, wrong


def main():
    parser = argparse.ArgumentParser(description=__doc__, formatter_class=argparse.RawDescriptionHelpFormatter)
    parser.add_argument("program", help="a built txgraph")
    parser.add_argument("input", nargs="*", help="files, folders, gen:SEED:COUNT or lines:SEED:COUNT")
    parser.add_argument("--all-later", action="store_true", help="refuse each request behind the nth too")
    words = parser.parse_args()
    inputs = [each for word in words.input or USUAL for each in inputs_of(word)]
    if not inputs:
        parser.error("no such folder has inputs")

    def show(name, tried, ways, otherwise):
        print(f"{name:40} {tried:>9}", *(f"{ways[way]:>9}" for way in WAYS), f"{otherwise:>9}", flush=True)

    with tempfile.TemporaryDirectory() as folder:
        source, library = pathlib.Path(folder) / "refuse.c", pathlib.Path(folder) / "refuse.so"
        source.write_text(LIBRARY)
        subprocess.run([os.environ.get("CC", "cc"), "-shared", "-fPIC", "-O1", "-o", library, source], check=True)
        program = Program(pathlib.Path(words.program).resolve(), library, words.all_later)
        show("input", "requests", {way: way for way in WAYS}, "otherwise")
        every, failures, is_untried = collections.Counter(), 0, False
        for word in inputs:
            ways, wrong = try_all(program, word)
            tried = sum(ways.values()) + len(wrong)
            show(pathlib.Path(word).name, tried, ways, len(wrong))
            for text in wrong:
                print(text, file=sys.stderr)
            if tried == 0:
                print(f"{word}: no request came by the C library", file=sys.stderr)
            every, failures, is_untried = every + ways, failures + len(wrong), is_untried or not tried
        show("all", sum(every.values()) + failures, every, failures)
    return 1 if failures or is_untried else 0


if __name__ == "__main__":
    sys.exit(main())
