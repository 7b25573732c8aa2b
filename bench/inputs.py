"""Made-up mempools, as lines and as texts, and the processor time of a program that reads them."""
import random, resource, subprocess, sys, tempfile


def text(lines):
    return "".join(f"{line}\n" for line in lines).encode()


def usual(count):
    """Transactions in groups of usual sizes, most of one or two, the largest of 64: see grouped."""
    def target(drawn):
        x = drawn.random()
        return 1 if x < 0.6 else 2 if x < 0.8 else drawn.randint(3, 12) if x < 0.97 else drawn.randint(13, 64)

    return grouped(count, target)


def grouped(count, target_of):
    """Transactions in groups of drawn sizes: number, fee, size, and parents of which none is above another."""
    drawn, groups = random.Random(1), []
    for k in range(1, count + 1):
        if len(groups) < max(1, min(1000, count // 10)):
            groups.append((target_of(drawn), [], []))
        at = drawn.randrange(len(groups))
        target, members, ends = groups[at]
        parents = []
        if members:
            parents = [drawn.choice(members[-12:])] if drawn.random() < 0.7 else drawn.sample(ends, min(len(ends), drawn.randint(2, 3)))
        members.append(k)
        ends[:] = [end for end in ends if end not in parents] + [k]
        size = drawn.randint(110, 6_300)
        yield k, drawn.randint(1, 100) * size, size, sorted(parents)
        if len(members) == target:
            groups[at] = groups[-1]
            groups.pop()


def made(txs):
    """The lines that make these."""
    return text(line for k, fee, size, parents in txs for line in (f"add {k} {fee} {size}", *(f"dep {parent} {k}" for parent in parents)))


def dumped(txs):
    """The text of these."""
    return text([*(f"tx {k} {fee} {size}" for k, fee, size, _ in txs), *(f"edge {parent} {k}" for k, _, _, some in txs for parent in some), "end"])


def seconds(program, words, given, rounds):
    """The least processor time of a run."""
    best, spent = None, 0
    with tempfile.TemporaryFile() as file:
        file.write(given)
        for done in range(1, 10 * rounds + 1):
            file.seek(0)
            before = resource.getrusage(resource.RUSAGE_CHILDREN)
            status = subprocess.run([program, *words.split()], stdin=file, stdout=subprocess.DEVNULL).returncode
            after = resource.getrusage(resource.RUSAGE_CHILDREN)
            if status not in (0, 1):
                sys.exit(f"{program} {words}: exit status {status}")
            took = after.ru_utime - before.ru_utime + after.ru_stime - before.ru_stime
            best, spent = took if best is None else min(best, took), spent + took
            if best > 60 or done >= rounds and spent > 3:
                break
    return best
