#!/usr/bin/env python3
"""Runs a built txgraph on the largest inputs that it takes, and tests what it answers.

    python3 tests/large_inputs.py PROGRAM [--small] [ROW ..]

Each call that may find no memory is called at its greatest size, where memory is ample, so that a program that gives up from some size on is
found out. The answers are compared with those of a plain model, which stands here; proofs go to `check`, small ones also to
contrib/check_certificate.py. A row prints `ok ROW SECONDS MB`, the processor time of its runs and the peak memory of the greatest, which are
told and not judged; or `wrong ROW` and why. The exit status is 1 where a row is wrong.

All rows take some ten minutes and 3 GB. --small does the same at a hundredth of the size. Names have 20 digits where that makes texts longest."""
import argparse, concurrent.futures, heapq, itertools, os, pathlib, random, subprocess, sys, tempfile

sys.path.append(str(pathlib.Path(__file__).resolve().parent.parent / "contrib"))
from check_certificate import answer
from refuse_growths import generated

MOST_NAMES, MOST_LINE, MOST_INPUT, MOST_FEE, MOST_SIZE = 1_048_576, 65_536, 268_435_456, 2_100_000_000_000_000, 4_000_000
MOST_BLOCKS = 100


class Wrong(Exception):
    """An answer that isn't the right one."""


def short(text):
    return text if len(text) <= 120 else f"{text[:100]}.. ({len(text)} characters)"


def need(holds, text):
    if not holds:
        raise Wrong(text)


# ---- runs


def timed(words, given, written):
    """The exit status of a run, its processor seconds, and its peak memory in megabytes."""
    with open(given, "rb") as source, open(written, "wb") as sink:
        child = subprocess.Popen(words, stdin=source, stdout=sink)
        _, status, used = os.wait4(child.pid, 0)
        child.returncode = os.waitstatus_to_exitcode(status)
    return child.returncode, used.ru_utime + used.ru_stime, used.ru_maxrss / 1024


class Replies:
    """The lines of an output, taken one after another."""

    def __init__(self, path):
        self.path, self.file, self.at = path, open(path, newline="\n"), 0

    def line(self):
        line = self.file.readline()
        self.at += 1
        need(line.endswith("\n"), f"line {self.at} of the output isn't there, or has no end")
        return line[:-1]

    def want(self, *wanted):
        self.same(wanted)

    def same(self, wanted):
        for line in wanted:
            got = self.line()
            need(got == line, f"line {self.at} of the output is `{short(got)}`, and not `{short(line)}`")

    def oks(self, count):
        self.same(itertools.repeat("ok", count))

    def to_end(self):
        """The lines up to a line `end`, which is passed."""
        for line in iter(self.line, "end"):
            need(not line.startswith("refused"), f"line {self.at} of the output is `{line}`")
            yield line

    def close(self):
        need(not self.file.readline(), f"the output has more than {self.at} lines")
        self.file.close()


class Program:
    """A built txgraph, and the greatest sizes, or a hundredth of them. Runs are made by a process that holds little memory: Linux counts
    what a process holds when it starts another to the other's peak."""

    def __init__(self, path, folder, small):
        self.path, self.folder, self.small = str(path), pathlib.Path(folder), small
        self.names, self.line, self.input = ((most // 100 if small else most) for most in (MOST_NAMES, MOST_LINE, MOST_INPUT))
        self.starter = concurrent.futures.ProcessPoolExecutor(1)
        self.starter.submit(os.getpid).result()
        self.begin()

    def begin(self):
        for file in self.folder.iterdir():
            file.unlink()
        self.runs, self.seconds, self.peak = 0, 0.0, 0.0

    def file(self, lines):
        """A file of these lines."""
        path = self.folder / f"{self.runs}.given"
        with open(path, "w", newline="\n") as file:
            file.writelines(f"{line}\n" for line in lines)
        return path

    def run(self, words, given, status=0):
        """What the program writes to a file, or to lines."""
        given = given if isinstance(given, pathlib.Path) else self.file(given)
        written = self.folder / f"{self.runs}.written"
        self.runs += 1
        ended, seconds, peak = self.starter.submit(timed, [self.path, *words.split()], given, written).result()
        self.seconds, self.peak = self.seconds + seconds, max(self.peak, peak)
        need(ended == status, f"`{words}` ends with status {ended}, and not {status}")
        return Replies(written)

    def replay(self, *lines):
        return self.run("replay", itertools.chain.from_iterable([line] if isinstance(line, str) else line for line in lines))

    def told(self, words, given, wanted):
        """The one line that the program writes, by `yes` or another word of its own."""
        replies = self.run(words, given, 0 if wanted == "yes" else 1)
        replies.want(wanted)
        replies.close()


# ---- the model


class Mempool:
    """Transactions 1, 2, 3 .., each with a fee, a size and parents of lesser numbers. The name of k is `first` and k together."""

    def __init__(self, first=0):
        self.first, self.fees, self.sizes, self.parents = first, [0], [0], [()]

    def add(self, fee, size, parents=()):
        self.fees.append(fee)
        self.sizes.append(size)
        self.parents.append(tuple(sorted(parents)))
        return len(self.fees) - 1

    def all(self):
        return range(1, len(self.fees))

    def name(self, k):
        return self.first + k

    def listed(self, some):
        return " ".join(str(self.first + k) for k in some)

    def tx(self, word, k):
        return f"{word} {self.first + k} {self.fees[k]} {self.sizes[k]}"

    def made(self):
        """The lines that make it."""
        for k in self.all():
            yield self.tx("add", k)
            for parent in self.parents[k]:
                yield f"dep {self.first + parent} {self.first + k}"

    def lines(self):
        return len(self.fees) - 1 + sum(map(len, self.parents))

    def components(self, kept):
        """For each number the least of its component, where these and their pairs are kept; 0 of others."""
        leader = list(range(len(self.fees)))
        for k in self.all():
            if kept(k):
                for parent in self.parents[k]:
                    if kept(parent):
                        a, b = found(leader, parent), found(leader, k)
                        leader[max(a, b)] = min(a, b)
        return [found(leader, k) if k and kept(k) else 0 for k in range(len(self.fees))]

    def dump(self, kept=None, front=False):
        """The text of those that are kept, where the others are removed. Of a front, which has the parents of each of its members, components
        may be much smaller than they were."""
        kept = kept or (lambda k: True)
        yield from (self.tx("tx", k) for k in self.all() if kept(k))
        whole, members = self.components(kept if front else lambda k: True), {}
        place, above = [0] * len(self.fees), [0] * len(self.fees)  # In the component; and the places of the ancestors that are kept
        for k in self.all():
            if front and not kept(k):
                continue
            others = members.setdefault(whole[k], [])
            place[k] = len(others)
            others.append(k)
            for parent in self.parents[k]:
                above[k] |= above[parent] | kept(parent) << place[parent]
            left, parents = above[k] if kept(k) else 0, []
            while left:  # From the highest place down: what an ancestor has above itself stands at lower places
                parents.append(others[left.bit_length() - 1])
                left &= ~(above[parents[-1]] | 1 << place[parents[-1]])
            yield from (f"edge {self.first + parent} {self.first + k}" for parent in reversed(parents))
        yield "end"


def found(leader, k):
    """The one that stands for k. What it passes leads there afterwards."""
    while leader[k] != k:
        leader[k] = k = leader[leader[k]]
    return k


def usual(count, seed, digits=True):
    """Transactions in groups of usual sizes: most of one or two, the largest of 64. Each has one to three parents in its group."""
    draw, pool = random.Random(seed), Mempool(2**64 - 1 - count if digits else 0)
    groups = []
    for _ in range(count):
        if len(groups) < 1000:
            x = draw.random()
            groups.append((1 if x < 0.6 else 2 if x < 0.8 else draw.randint(3, 12) if x < 0.97 else draw.randint(13, 64), []))
        at = draw.randrange(len(groups))
        target, members = groups[at]
        parents = {draw.choice(members[-12:]) for _ in range(draw.randint(1, 3))} if members else ()
        size = draw.randint(110, 6_300)
        fee = draw.randint(-MOST_FEE, MOST_FEE) if draw.random() < 0.01 else draw.randint(1, 100) * size + draw.randrange(size)
        members.append(pool.add(fee, size, parents))
        if len(members) == target:
            groups[at] = groups[-1]
            groups.pop()
    return pool


def chains(count, length):
    """Chains of this length, at last a shorter one."""
    pool = Mempool()
    for k in range(1, count + 1):
        pool.add(k % 5000, 100, [k - 1] if k % length != 1 else ())
    return pool


def limits(program, most=64, size=404_000, defer=False):
    return f"limits {most} {size} {program.names}{' defer' if defer else ''}"


def drawn(count, seed):
    numbers = list(range(1, count + 1))
    random.Random(seed).shuffle(numbers)
    return numbers


def full(word, words, most):
    """A line of as many of the words as fit, and how many these are."""
    taken, size = [word], len(word)
    for item in words:
        size += 1 + len(item)
        if size > most:
            break
        taken.append(item)
    return " ".join(taken), len(taken) - 1


# ---- what replies say


def chunk(line, word, first=0):
    """Fee, size and numbers of a line `chunk`, or with another word."""
    said, *numbers = line.split(" ")
    need(said == word and len(numbers) > 2, f"`{short(line)}` isn't a line `{word}`")
    fee, size, *names = numbers
    return int(fee), int(size), [int(name) - first for name in names]


def read_order(pool, lines):
    """The chunks of an order: each transaction once, parents first, sums that are right, rates that fall."""
    chunks = [chunk(line, "chunk", pool.first) for line in lines]
    place = {k: i for i, k in enumerate(k for _, _, some in chunks for k in some)}
    need(len(place) == sum(len(some) for _, _, some in chunks) and place.keys() == set(pool.all()), "the order doesn't have each name once")
    need(all(place[parent] < place[k] for k in pool.all() for parent in pool.parents[k]), "the order has a child before a parent")
    for fee, size, some in chunks:
        need(fee == sum(pool.fees[k] for k in some) and size == sum(pool.sizes[k] for k in some), "the order has a sum that is wrong")
    need(all(b[0] * a[1] <= a[0] * b[1] for a, b in zip(chunks, chunks[1:])), "the order has rates that rise")
    return chunks


def diagram(chunks):
    """The lines of the diagram of chunks whose rates fall."""
    points, rate = [(0, 0)], None
    for fee, size, _ in chunks:
        point = (points[-1][0] + size, points[-1][1] + fee)
        if rate and fee * rate[1] == rate[0] * size:
            points.pop()
        points.append(point)
        rate = fee, size
    return [f"point {size} {fee}" for size, fee in points]


def filled(chunks, whole, size):
    """The numbers of a block, and the sums."""
    left, fees, taken, shut = size, 0, [], set()
    for fee, weight, some in chunks:
        component = whole[some[0]]
        if component not in shut and weight <= left:
            left, fees = left - weight, fees + fee
            taken.extend(some)
        else:
            shut.add(component)
    return fees, size - left, taken


def trimmed(pool, without=None, most=64, weight=404_000):
    """The numbers that `trim` keeps, where one isn't there."""
    children, waiting = {}, [len(parents) for parents in pool.parents]
    for k in pool.all():
        for parent in pool.parents[k]:
            children.setdefault(parent, []).append(k)
    # Two rates differ by more than 2^-64, so whole numbers stand for them.
    rate = [0, *(-((pool.fees[k] << 64) // pool.sizes[k]) for k in pool.all())]
    heap = [(rate[k], k) for k in pool.all() if not waiting[k] and k != without]
    heapq.heapify(heap)
    leader, count, total, kept = list(range(len(waiting))), [1] * len(waiting), pool.sizes[:], set()
    while heap:
        _, k = heapq.heappop(heap)
        joined = {found(leader, parent) for parent in pool.parents[k]}
        names, size = 1 + sum(count[one] for one in joined), pool.sizes[k] + sum(total[one] for one in joined)
        if names > most or size > weight:
            continue
        for one in joined:
            leader[one] = k
        count[k], total[k] = names, size
        kept.add(k)
        for child in children.get(k, ()):
            waiting[child] -= 1
            if not waiting[child]:
                heapq.heappush(heap, (rate[child], child))
    return kept


# ---- rows: a full main


def adds(program):
    """As many names as may be live, and all readings of that level."""
    pool = usual(program.names, 1)
    ends = ["add 0 5 5", "count main", "order main", "diagram main", "proof main"]
    replies = program.replay(limits(program), pool.made(), ends)
    replies.oks(1 + pool.lines())
    replies.want("refused full", f"count {program.names}")
    order = list(replies.to_end())
    chunks = read_order(pool, order)
    need(list(replies.to_end()) == diagram(chunks), "the diagram isn't that of the order")
    proof = list(replies.to_end())
    replies.close()
    need([line for line in proof if line.startswith("chunk")] == order, "the chunks of the proof aren't those of the order")
    program.told("check", [*proof, "end"], "yes")


def dump(program):
    """A dump of all names; its text is loaded, and the proof is checked."""
    pool = usual(program.names, 2)
    replies = program.replay(limits(program), pool.made(), ["dump", "count main"])
    replies.oks(1 + pool.lines())
    replies.same(pool.dump())
    replies.want(f"count {program.names}")
    replies.close()
    loaded(program, pool.dump)


def loaded(program, text):
    """The text is loaded: its proof is accepted, where `check` can read it, and speaks of its graph."""
    replies = program.run("load", text())
    need(gist(replies.to_end()) == gist(text()), "the proof has other transactions or edges than the text")
    replies.close()
    if replies.path.stat().st_size <= MOST_INPUT:
        program.told("check", replies.path, "yes")


def gist(lines):
    """Of transactions and of edges how many lines there are, and a number that is made of them in any order."""
    count, number = {"tx": 0, "edge": 0}, {"tx": 0, "edge": 0}
    for line in lines:
        word = line.split(" ", 1)[0]
        if word in count:
            count[word] += 1
            number[word] ^= hash(line)
    return count, number


def small_proofs(program):
    """Proofs of a hundredth of the names, by `proof` and by `load`, which a second checker reads."""
    pool = usual(program.names // 100, 3)
    replies = program.replay(pool.made(), ["proof main"])
    replies.oks(pool.lines())
    for proof in (replies.to_end(), program.run("load", pool.dump()).to_end()):
        need(answer("\n".join([*proof, "end"]).encode()) == "yes", "the second checker doesn't answer `yes`")


def fees(program):
    """Another fee of each name, and another one again while a staging is open."""
    pool, draw = usual(program.names, 4), random.Random(4)
    made, lines = [limits(program), *pool.made()], []
    for seed in (5, 6):
        for k in drawn(program.names, seed):
            pool.fees[k] = draw.randint(-MOST_FEE, MOST_FEE) if draw.random() < 0.1 else draw.randint(0, 500_000)
            lines.append(f"fee {pool.name(k)} {pool.fees[k]}")
        lines.append("stage" if seed == 5 else "commit")
    replies = program.replay(made, lines, ["proof main"])
    replies.oks(len(made) + len(lines))
    proof = list(replies.to_end())
    replies.close()
    read_order(pool, [line for line in proof if line.startswith("chunk")])
    program.told("check", [*proof, "end"], "yes")


def removes(program):
    """Each name is removed; half way the text is compared."""
    pool, numbers = usual(program.names, 7), drawn(program.names, 8)
    half = len(numbers) // 2
    lines = [f"remove {pool.name(k)}" for k in numbers]
    replies = program.replay(limits(program), pool.made(), lines[:half], ["dump"], lines[half:], ["count main", "order main", "dump"])
    replies.oks(1 + pool.lines() + half)
    kept = set(numbers[half:])
    replies.same(pool.dump(kept.__contains__))
    replies.oks(len(numbers) - half)
    replies.want("count 0", "end", "end")
    replies.close()


def staging(program):
    """A staging that removes all, which is dropped, and then one that is committed."""
    pool, numbers = usual(program.names, 9), drawn(program.names, 10)
    gone = ["stage", *(f"remove {pool.name(k)}" for k in numbers), "count top", "count main"]
    replies = program.replay(limits(program), pool.made(), gone, ["abort", "dump"], gone, ["commit", "count main", "dump"])
    replies.oks(1 + pool.lines())
    for text in (pool.dump(), ["count 0", "end"]):
        replies.oks(1 + len(numbers))
        replies.want("count 0", f"count {program.names}", "ok")
        replies.same(text)
    replies.close()


def staged_changes(program):
    """Half of the names in main, as many in staging, all joined there and given other fees."""
    half, draw = program.names // 2, random.Random(11)
    pool = Mempool(2**64 - 1 - 2 * half)
    for k in range(2 * half):
        pool.add(draw.randint(0, 500_000), 100)
    singles = [pool.tx("add", k) for k in pool.all()]
    main, new, changes = singles[:half], singles[half:], []
    for k in pool.all()[half:]:  # Each child in staging has a parent of main
        pool.parents[k] = (k - half,)
        changes.append(f"dep {pool.name(k - half)} {pool.name(k)}")
    for k in drawn(2 * half, 12):
        pool.fees[k] = draw.randint(-500_000, 500_000)
        changes.append(f"fee {pool.name(k)} {pool.fees[k]}")
    ends = ["count main", "count top", "commit", "dump", "proof main"]
    replies = program.replay(f"limits 64 404000 {2 * half}", main, "stage", new, "add 0 5 5", changes, ends)
    replies.oks(2 + 2 * half)
    replies.want("refused full")
    replies.oks(len(changes))
    replies.want(f"count {half}", f"count {2 * half}", "ok")
    replies.same(pool.dump())
    proof = list(replies.to_end())
    replies.close()
    read_order(pool, [line for line in proof if line.startswith("chunk")])
    program.told("check", [*proof, "end"], "yes")


def block(program):
    """Blocks that all names fit into, half of them, and none."""
    pool = usual(program.names, 13)
    total, whole = sum(pool.sizes), pool.components(lambda k: True)
    sizes = [2**64 - 1, total, total // 2, 1_000_000, 0]
    replies = program.replay(limits(program), pool.made(), ["order main"], (f"block {size}" for size in sizes))
    replies.oks(1 + pool.lines())
    chunks = read_order(pool, replies.to_end())
    for size in sizes:
        fee, weight, some = filled(chunks, whole, size)
        replies.want(f"block {fee} {weight} {pool.listed(some)}" if some else "block 0 0")
    replies.close()


def evict(program):
    """The last chunk goes until main is empty: each name with the rate that its chunk had at first."""
    pool = usual(program.names, 14)
    replies = program.replay(limits(program), pool.made(), ["order main"], itertools.repeat("evict", program.names + 1), ["count main"])
    replies.oks(1 + pool.lines())
    chunks = read_order(pool, replies.to_end())
    rate = {k: (fee, size) for fee, size, some in chunks for k in some}
    below, left = [0] * len(pool.fees), len(pool.fees) - 1
    for k in pool.all():
        for parent in pool.parents[k]:
            below[parent] += 1
    evicted = 0
    while left:
        fee, size, some = chunk(replies.line(), "evicted", pool.first)
        need(fee == sum(pool.fees[k] for k in some) and size == sum(pool.sizes[k] for k in some), "an evicted chunk has a sum that is wrong")
        for k in reversed(some):
            need(k in rate and fee * rate[k][1] == rate[k][0] * size, f"{pool.name(k)} is evicted at another rate than it had, or twice")
            need(below[k] == 0, f"{pool.name(k)} is evicted before a child")
            del rate[k]
            for parent in pool.parents[k]:
                below[parent] -= 1
        left, evicted = left - len(some), evicted + 1
    replies.want(*itertools.repeat("refused empty", program.names + 1 - evicted), "count 0")
    replies.close()


# ---- rows: mined blocks


def mine(program):
    """A block of the most names that fit into a line, in chains; and a line of the most names, all the same."""
    line, count = full("mine", map(str, itertools.count(1)), program.line)
    pool = chains(count + 100, 64)
    back = " ".join(reversed(line.split(" ")[1:]))
    twice, _ = full("mine", itertools.repeat("1"), program.line)
    ends = [twice, "mine " + back, "count main", "unmine", "dump", line, "count main", "dump", "unmine", "dump", "unmine"]
    replies = program.replay(limits(program), pool.made(), ends)
    replies.oks(1 + pool.lines())
    kept = range(count + 1, count + 101).__contains__
    replies.want("refused twice 1", "ok", "count 100", f"unmined {back}")
    replies.same(pool.dump())
    replies.want("ok", "count 100")
    replies.same(pool.dump(kept))
    replies.want("unmined " + line[5:])
    replies.same(pool.dump())
    replies.want("refused noblock")
    replies.close()


def blocks(program):
    """All of main, in chains of 64, is mined in blocks as large as a line; and as many as are kept come back."""
    pool, mined, at = chains(program.names, 64), [], 1
    while at <= program.names:
        line, count = full("mine", map(str, range(at, program.names + 1)), program.line)
        mined.append(line)
        at += count
    kept = [line[5:] for line in mined[-MOST_BLOCKS:]]
    least = int(kept[0].split(" ")[0])
    ends = ["count main", *(["unmine"] * (len(kept) + 1)), "count main", "dump", "proof main"]
    replies = program.replay(limits(program), pool.made(), mined, ends)
    replies.oks(1 + pool.lines() + len(mined))
    replies.want("count 0", *(f"unmined {names}" for names in reversed(kept)), "refused noblock", f"count {program.names + 1 - least}")
    replies.same(pool.dump(range(least, program.names + 1).__contains__))
    program.told("check", [*replies.to_end(), "end"], "yes")
    replies.close()


# ---- rows: clusters over the limits

REFUSED = ["order main", "diagram main", "proof main", "dump", "chunk 1", "before 1 2", "cluster 1 main", "ancestors 1 main", "descendants 1 top",
    "block 1000", "evict"]
TRIM = ["trim", "trim", "count main", "dump", "proof main"]


def halves(first, behind, joins):
    """The pairs by which the halves of a row are joined, from those of two on: what is before the cut, and what is behind it, give one each."""
    if behind - first > 1:
        cut = (first + behind) // 2
        yield from halves(first, cut, joins)
        yield from halves(cut, behind, joins)
        yield joins(first, cut, behind)


def oversized(program):
    """A chain of all names, over the limits: readings are refused, then changes, `trim`, and readings."""
    pool, count = Mempool(), program.names
    draw = random.Random(15)
    for k in range(1, count + 1):
        pool.add(draw.randint(0, 500_000), draw.randint(110, 6_300), [k - 1] if k > 1 else ())
    joins = [f"dep {a} {b}" for a, b in halves(1, count + 1, lambda first, cut, behind: (cut - 1, cut))]
    made = [limits(program, defer=True), *(pool.tx("add", k) for k in pool.all()), *joins]
    changes = [f"dep {count} 1", f"fee {count} 7", "mine 1 2", "count main", "unmine", f"dep 1 {count}", "remove 3"]
    pool.fees[count], pool.parents[3], pool.parents[4] = 7, (), (2,)
    replies = program.replay(made, REFUSED, ["count main"], changes, REFUSED, TRIM)
    replies.oks(len(made))
    replies.want(*["refused oversized"] * len(REFUSED), f"count {count}")
    replies.want("refused cycle", "ok", "ok", f"count {count - 2}", "unmined 1 2", "ok", "ok", *["refused oversized"] * len(REFUSED))
    after_trim(program, replies, pool, 3)


def told_dropped(pool, kept, without=None):
    """The reply of a `trim` that keeps these."""
    gone = [k for k in pool.all() if k not in kept and k != without]
    return f"trimmed {sum(pool.fees[k] for k in gone)} {sum(pool.sizes[k] for k in gone)} {pool.listed(gone)}"


def after_trim(program, replies, pool, without=None):
    """What `trim` drops, and the readings behind it."""
    kept = trimmed(pool, without)
    replies.want(told_dropped(pool, kept, without), "trimmed 0 0", f"count {len(kept)}")
    replies.same(pool.dump(kept.__contains__, front=True))
    program.told("check", [*replies.to_end(), "end"], "yes")
    replies.close()


def oversized_staging(program):
    """A component of all names whose halves are joined at drawn places, in a staging: it is trimmed and dropped; then it is made again,
    committed and trimmed."""
    count, draw = program.names, random.Random(16)
    pool, alone = Mempool(), Mempool()
    for _ in range(count):
        alone.add(draw.randint(0, 500_000), draw.randint(110, 6_300))
        pool.add(alone.fees[-1], alone.sizes[-1])
    joins = list(halves(1, count + 1, lambda first, cut, behind: (draw.randrange(first, cut), draw.randrange(cut, behind))))
    for parent, child in joins:
        pool.parents[child] = (*pool.parents[child], parent)
    joins = ["stage", *(f"dep {parent} {child}" for parent, child in joins), "compare", "settle", "descendants 1 top", "order main"]
    first = ["trim", "count top", "count main", "abort", "dump"]
    replies = program.replay(limits(program, defer=True), alone.made(), joins, first, joins, ["commit"], TRIM)
    replies.oks(1 + count)
    for turn in range(2):
        replies.oks(len(joins) - 4)
        replies.want(*["refused oversized"] * 3)
        read_order(alone, list(replies.to_end()))
        if turn == 0:
            kept = trimmed(pool)
            replies.want(told_dropped(pool, kept), f"count {len(kept)}", f"count {count}")
            replies.want("ok")
            replies.same(alone.dump())
    replies.want("ok")
    after_trim(program, replies, pool)


def pairs(program):
    """A name between many parents and many children is removed, so that each child depends on each parent. The parents are mined, come back,
    and `trim` drops the children."""
    side, draw, pool = 100 if program.small else 1_000, random.Random(21), Mempool()
    for _ in range(side):
        pool.add(draw.randint(0, 500_000), draw.randint(110, 6_300))
    parents = pool.all()
    hub = pool.add(5, 5, parents)
    for _ in range(side):
        pool.add(draw.randint(0, 500_000), draw.randint(110, 6_300), [hub])
    made = [limits(program, defer=True), *pool.made(), f"remove {hub}"]
    replies = program.replay(made, REFUSED, [f"mine {pool.listed(parents)}", "count main", f"chunk {hub + 1}", "unmine"], REFUSED, TRIM)
    replies.oks(len(made))
    replies.want(*["refused oversized"] * len(REFUSED), "ok", f"count {side}")
    replies.want(f"chunk {pool.fees[hub + 1]} {pool.sizes[hub + 1]} {hub + 1}", f"unmined {pool.listed(parents)}")
    replies.want(*["refused oversized"] * len(REFUSED))
    pool.parents[hub] = ()
    for k in range(hub + 1, hub + 1 + side):
        pool.parents[k] = tuple(parents)
    after_trim(program, replies, pool, hub)


# ---- rows: clusters at their limit


class Cluster:
    """A few transactions with all their ancestors, lines about them, and what is wanted of the replies."""

    def __init__(self):
        self.txs, self.above, self.lines, self.wanted = {}, {}, [], []

    def say(self, line, wanted="ok"):
        self.lines.append(line)
        self.wanted.append(wanted)

    def add(self, name, fee, size):
        self.txs[name], self.above[name] = (fee, size), set()
        self.say(f"add {name} {fee} {size}")

    def fee(self, name, fee):
        self.txs[name] = fee, self.txs[name][1]
        self.say(f"fee {name} {fee}")

    def dep(self, parent, child):
        for name, above in self.above.items():
            if name == child or child in above:
                above |= {parent} | self.above[parent]
        self.say(f"dep {parent} {child}")

    def remove(self, name):
        del self.txs[name], self.above[name]
        for above in self.above.values():
            above.discard(name)
        self.say(f"remove {name}")

    def proof(self):
        """A proof of main as it is now."""
        txs = {f"tx {name} {fee} {size}" for name, (fee, size) in self.txs.items()}
        edges = set()
        for name, above in self.above.items():
            between = set().union(*(self.above[other] for other in above))
            edges |= {f"edge {parent} {name}" for parent in above - between}
        self.say("proof main", (txs, edges))

    def ids(self, line, names):
        self.say(line, "ids " + " ".join(map(str, sorted(names))))

    def searches(self, names):
        for name in names:
            self.ids(f"ancestors {name} main", self.above[name] | {name})
            self.ids(f"descendants {name} top", [name, *(other for other, above in self.above.items() if name in above)])

    def judge(self, replies):
        for wanted in self.wanted:
            if isinstance(wanted, str):
                replies.want(wanted)
                continue
            proof = list(replies.to_end())
            need(answer("\n".join([*proof, "end"]).encode()) == "yes", f"the second checker doesn't answer `yes` to the proof before line {replies.at}")
            need({line for line in proof if line.startswith("tx")} == wanted[0], f"other transactions before line {replies.at}")
            need({line for line in proof if line.startswith("edge")} == wanted[1], f"other edges before line {replies.at}")
        replies.close()


def shaped(shape, names, draw):
    """The pairs of a connected shape over names that rise."""
    if shape == "chain":
        return list(zip(names, names[1:]))
    if shape == "star":
        return [(names[0], name) for name in names[1:]]
    if shape == "fence":
        half = len(names) // 2
        return [(names[place], child) for k, child in enumerate(names[half:]) for place in {min(k, half - 1), min(k + 1, half - 1)}]
    return [(draw.choice(names[max(0, k - 12) : k]), names[k]) for k in range(1, len(names)) for _ in range(draw.randint(1, 3))]


def at_limit(width, shape, seed):
    """Two halves, joined by a child of both, split again by its removal, joined by a pair, given other fees, and emptied."""
    draw, cluster = random.Random(seed), Cluster()
    size = 404_000 if width == 64 else 512_000_000
    cluster.say(f"limits {width} {size} {width + 1}")
    names = list(range(1, width))
    half = names[: width // 2 - 1], names[width // 2 - 1 :]
    each = size // width
    for name in names:
        cluster.add(name, draw.randint(-MOST_FEE, MOST_FEE) if seed % 2 else draw.randint(0, 50) * each + draw.randrange(each), each)
    for part in half:
        for parent, child in shaped(shape, part, draw):
            cluster.dep(parent, child)
    cluster.proof()
    ends = half[0][-1], half[1][-1]
    for turn in range(2):
        cluster.add(width, draw.randint(0, MOST_FEE), size - each * (width - 1))
        cluster.dep(ends[0], width)
        cluster.dep(ends[1], width)
        cluster.ids("cluster 1 main", range(1, width + 1))
        cluster.searches([1, width // 2, width])
        cluster.say(f"add {width + 1} 5 1")
        cluster.say(f"dep {width + 1} 1", f"refused count {width + 1}")
        cluster.say(f"remove {width + 1}")
        cluster.proof()
        for name in draw.sample(range(1, width + 1), width):
            cluster.fee(name, draw.choice([-MOST_FEE, MOST_FEE, draw.randint(0, 50 * each)]))
        cluster.proof()
        cluster.remove(width)
        cluster.ids(f"cluster {ends[0]} main", half[0] if turn == 0 else names)
        cluster.proof()
        if turn == 0:
            cluster.dep(half[0][0], ends[1])
    for name in draw.sample(names, len(names)):
        cluster.remove(name)
        if len(cluster.txs) % 16 == 0:
            cluster.proof()
    cluster.say("count main", "count 0")
    cluster.say("dump", "end")
    return cluster


def clusters(program):
    """Clusters of exactly 64 and of exactly 128 transactions, of four shapes."""
    for width in (64, 128):
        for seed, shape in enumerate(["chain", "star", "fence", "drawn"] * (1 if program.small else 4)):
            cluster = at_limit(width, shape, seed)
            cluster.judge(program.replay(cluster.lines))


def wide_main(program):
    """Main is full of clusters of 128, each joined of halves, of the greatest sizes."""
    pool, draw = Mempool(2**64 - 1 - program.names), random.Random(17)
    for k in range(1, program.names + 1):
        pool.add(draw.randint(0, MOST_FEE), MOST_SIZE)
    joins = []
    for first in range(1, program.names + 1, 128):
        joins += halves(first, min(first + 128, program.names + 1), lambda first, cut, behind: (draw.randrange(first, cut), draw.randrange(cut, behind)))
    for parent, child in joins:
        pool.parents[child] = (*pool.parents[child], parent)
    pairs = [f"dep {pool.name(parent)} {pool.name(child)}" for parent, child in joins]
    made = [limits(program, 128, 512_000_000), *(pool.tx("add", k) for k in pool.all()), *pairs]
    replies = program.replay(made, ["proof main", "dump"])
    replies.oks(len(made))
    proof = list(replies.to_end())
    replies.same(pool.dump())
    replies.close()
    read_order(pool, [line for line in proof if line.startswith("chunk")])
    program.told("check", [*proof, "end"], "yes")


# ---- rows: lines and inputs as long as may be

FORMS = ["limits", "add", "dep", "fee", "remove", "cluster", "ancestors", "descendants", "count", "order", "diagram", "proof", "dump", "chunk",
    "before", "stage", "commit", "abort", "unmine", "evict", "trim", "block", "compare", "settle", "nothing"]


def padded(word, size):
    """A line of words `1` of just this size."""
    line = (word + " 1" * size)[:size]
    return line if line[-1] == "1" else line[:-1] + "1"


def lines(program):
    """Lines of 65,536 bytes of each form, and lines that are longer by one byte."""
    said, wanted = ["add 1 5 5"], ["ok"]
    for form in FORMS:
        said += [padded(form, MOST_LINE), padded(form, MOST_LINE - 1) + "\r", padded(form, MOST_LINE + 1), padded(form, MOST_LINE) + "\r"]
        said += [(form + " " + "1" * MOST_LINE)[:MOST_LINE], form + " " * (MOST_LINE - len(form)), "count main"]
        wanted += ["refused syntax", "refused syntax", "refused line", "refused line", "refused syntax", "refused syntax", "count 1"]
    said += ["#" * MOST_LINE, "#" * (MOST_LINE + 1), "#" * MOST_LINE + "\r", " " * MOST_LINE, padded("mine", MOST_LINE), padded("mine", MOST_LINE + 1)]
    wanted += ["refused line", "refused line", "refused syntax", "refused twice 1", "refused line"]
    replies = program.replay(said, ["order main"])
    replies.want(*wanted, "chunk 5 5 1", "end")
    replies.close()
    for word in ("tx", "edge", "chunk", "flow"):
        said = "no order" if word == "chunk" else "no syntax"
        program.told("check", ["tx 1 5 5", "chunk 5 5 1", padded(word, MOST_LINE), "end"], said)
        program.told("load", ["tx 1 5 5", padded(word, MOST_LINE), "end"], "no syntax")
    program.told("check", ["#" * MOST_LINE, "tx 1 5 5", "chunk 5 5 1", "end"], "yes")
    program.told("check", ["#" * (MOST_LINE + 1), "tx 1 5 5", "chunk 5 5 1", "end"], "no syntax")


def comments(size, last):
    """Comments, and a last line, of just this size together."""
    left = size - len(last) - 1
    while left > MOST_LINE + 1:
        yield "#" * (MOST_LINE - 1)
        left -= MOST_LINE
    yield "#" * (left - 1)
    yield last


def inputs(program):
    """Inputs of just as many bytes as may be, and of one more."""
    for words, last, said in [("replay", "count main", "count 0"), ("check", "end", "yes")]:
        replies = program.run(words, comments(program.input, last))
        replies.want(said)
        replies.close()
        if not program.small:
            program.run(words, comments(program.input + 1, last), 6).close()


# ---- rows: certificates and texts of graphs


def certificate(count, txs, edges, first=0):
    """The lines of a certificate of names of one rate, each a chunk, in the order of their numbers."""
    yield from (f"tx {first + k} 5 5" for k in txs)
    yield from (f"edge {first + parent} {first + child}" for parent, child in edges)
    yield from (f"chunk 5 5 {first + k}" for k in range(1, count + 1))
    yield "end"


def check(program):
    """A chain of all names whose lines fall, or are drawn; a star; and a cycle that the last line closes."""
    count, first = program.names, 2**64 - 1 - program.names
    falling, shuffled = range(count, 0, -1), drawn(count, 18)
    for txs, edges in [
        (falling, ((k - 1, k) for k in falling[:-1])),
        (shuffled, ((k, k + 1) for k in drawn(count - 1, 19))),
        (shuffled, ((1, k) for k in shuffled if k != 1)),
    ]:
        program.told("check", certificate(count, txs, edges, first), "yes")
    cycle = itertools.chain(((k - 1, k) for k in falling[:-1]), [(count, 1)])
    program.told("check", certificate(count, falling, cycle, first), "no graph")


def check_most(program):
    """As many edges as an input may have beside all names; one name more."""
    count, txs = program.names, range(1, program.names + 1)
    room = program.input - sum(len(line) + 1 for line in certificate(count, txs, ()))
    edges = room // len(f"edge {count} {count} ")
    places = (k * 7_368_787 % edges for k in range(edges))  # Each place once, far apart
    pairs = ((1 + place % count, 2 + place % count + place // count) for place in places)
    program.told("check", certificate(count, txs, ((parent, child) for parent, child in pairs if child <= count)), "yes")
    if not program.small:
        program.told("check", certificate(count + 1, range(1, count + 2), ()), "no graph")


def check_flows(program):
    """Chunks as long as a line, in which each second name pays for the one before; the last flow is then too small."""
    count = program.names - program.names % 2
    at, txs, edges, groups = 1, [], [], []
    while at <= count:
        _, room = full(f"chunk {count} {count}", map(str, range(at, count + 1)), program.line)
        some = range(at, at + room - room % 2)
        txs += [f"tx {k} {2 * (k % 2 != at % 2)} 1" for k in some]
        edges += [f"edge {k} {k + 1}" for k in some[:-1]]
        groups.append(f"chunk {len(some)} {len(some)} {' '.join(map(str, some))}")
        groups += [f"flow {k + 1} {k} {len(some)}" for k in some[::2]]
        at += len(some)
    program.told("check", [*txs, *edges, *groups, "end"], "yes")
    groups[-1] = groups[-1].rsplit(" ", 1)[0] + " 1"
    program.told("check", [*txs, *edges, *groups, "end"], "no flow")


def tangles(groups):
    """The lines of groups of 64: 32 parents that all have the same 32 children."""
    firsts = range(1_000_000, 1_000_000 + 64 * groups, 64)
    yield from (f"tx {k} {k * 7919 % 100_000} 100" for first in firsts for k in range(first, first + 64))
    yield from (f"edge {parent} {child}" for first in firsts for child in range(first + 32, first + 64) for parent in range(first, first + 32))


def load(program):
    """A text with as many edges as an input may have; and such that are refused at their end."""
    groups = program.input // (64 * len("tx 1000000 12345 100 ") + 32 * 32 * len("edge 1000000 1000001 "))
    loaded(program, lambda: itertools.chain(tangles(groups), ["end"]))
    groups //= 10
    last = 1_000_000 + 64 * groups - 1
    for more, said in [
        ([f"edge {last - 32} {last}"], "no graph"),  # It stands twice
        ([f"edge {last + 1} {last + 2}"], "no graph"),
        (["end", ""], "no syntax"),
    ]:
        program.told("load", itertools.chain(tangles(groups), more, ["end"]), said)
    lines = list(tangles(groups))
    lines.insert(64 * groups, f"tx {last + 1} 5 5")
    program.told("load", [*lines, f"edge {last} {last + 1}", "end"], "no limits")
    program.told("load", [*lines, f"edge {last - 63} {last + 1}", f"edge {last - 62} {last + 1}", f"edge {last} {last + 1}", "end"], "no graph")


def load_names(program):
    """Texts of all names: alone, in chains of 64, in one chain, and one name more."""
    count, first = program.names, 2**64 - 1 - program.names
    txs = [f"tx {first + k} {k} {5 + k % 7}" for k in range(count)]
    edges = [f"edge {first + k - 1} {first + k}" for k in range(1, count)]
    for some in ([], [edge for k, edge in enumerate(edges, 1) if k % 64]):
        loaded(program, lambda: [*txs, *some, "end"])
    program.told("load", [*txs, *edges, "end"], "no limits")
    if not program.small:
        program.told("load", ["tx 0 5 5", *txs, "end"], "no limits")


# ---- rows: generated commands


def gen(program):
    """As many generated commands as may be: the summary is that of `replay` to the same lines."""
    count = 1_000_000 // (100 if program.small else 1)
    for seed in (1, 2**31 - 1):
        replies = program.replay(generated(seed, count), ["abort", "count main", "diagram main"])
        said = [replies.line() for _ in range(count)]
        refused = sum(line.startswith("refused") for line in said)
        need("refused memory" not in said, "a generated command is answered `refused memory`")
        replies.line()
        counted, points = replies.line(), list(replies.to_end())
        _, size, fee = points[-1].split(" ")
        summary = program.run(f"gen {seed} {count}", [])
        summary.want(f"accepted {count - refused}", f"refused {refused}", "memory 0", counted, f"total {fee} {size}", f"corners {len(points)}")


ROWS = [adds, dump, small_proofs, fees, removes, staging, staged_changes, block, evict, mine, blocks, oversized, oversized_staging, pairs, clusters,
    wide_main, lines, inputs, check, check_most, check_flows, load, load_names, gen]


def main():
    rows = {row.__name__: row for row in ROWS}
    parser = argparse.ArgumentParser(description=__doc__, formatter_class=argparse.RawDescriptionHelpFormatter)
    parser.add_argument("program", help="a built txgraph")
    parser.add_argument("row", nargs="*", help=", ".join(rows) + "; all without one")
    parser.add_argument("--small", action="store_true", help="a hundredth of each size")
    words = parser.parse_intermixed_args()
    if unknown := set(words.row) - set(rows):
        parser.error(f"no such row: {' '.join(sorted(unknown))}")
    failed = False
    with tempfile.TemporaryDirectory() as folder:
        program = Program(pathlib.Path(words.program).resolve(), folder, words.small)
        for name in words.row or rows:
            program.begin()
            try:
                rows[name](program)
                print(f"ok {name} {program.seconds:.2f} {program.peak:.0f}", flush=True)
            except Wrong as error:
                failed = True
                print(f"wrong {name}: {error}", flush=True)
        program.starter.shutdown()
    return 1 if failed else 0


if __name__ == "__main__":
    sys.exit(main())
