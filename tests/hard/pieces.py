"""Histories judged in pieces (otp/judge), for tests: the answers have to be those of `pat replay` to the whole."""
import os
import subprocess

import nodes

JUDGE = os.path.join(nodes.ROOT, "otp", "judge")
# After 261 steps of one worker more sets of messages may be pending than a certificate is looked for.
MANY_SETS = b"""interface I { a(), b(), c() }
def sender(x: I!, first: Bool): Unit {
    print(1); print(2); print(3); print(4); print(5); print(6); print(7); print(8); print(9); print(10); print(11); print(12); print(13);
    if first { x ! a(); x ! b() } else { x ! a(); x ! c() }
}
def go(x: I!, n: Int): Unit { if n == 0 { () } else { spawn { sender(x, n == 1) }; go(x, n - 1) } }
def pairs(x: I?): Unit {
    guard x : *(a.(b + c)) {
        free -> ()
        receive a() from y -> guard y : (b + c).*(a.(b + c)) { receive b() from z -> pairs(z) receive c() from z -> pairs(z) }
    }
}
def main(): Unit { let a = new[I] in spawn { pairs(a) }; go(a, 20) }
"""
UNSHOWN_STEPS, UNSHOWN_ENTRIES = 261, 81


def judged(program, text, size):
    """Status and answer."""
    done = subprocess.run([JUDGE, "--piece", str(size)], input=text, stdout=subprocess.PIPE, stderr=subprocess.STDOUT, check=False,
                          timeout=nodes.SECONDS, env=dict(os.environ, PAT=program))
    return done.returncode, done.stdout


def replayed(program, text):
    done = subprocess.run([program, "replay"], input=text, stdout=subprocess.PIPE, check=False, timeout=nodes.SECONDS)
    return done.returncode, done.stdout


def history(program, text, most, words=()):
    """The entries of a run, up to so many."""
    done = subprocess.run([program, "run", *words], input=text, stdout=subprocess.PIPE, check=False, timeout=nodes.SECONDS)
    lines = done.stdout.splitlines(keepends=True)
    return lines[1:lines.index(b"%%output\n")][:most]


def wrong_where_unshown(program):
    """Whether a piece isn't cut off sooner where the checkpoint that it leads to has no certificate."""
    entries = history(program, MANY_SETS, 2 * UNSHOWN_ENTRIES, ["--steps", "400"])
    worker, thread, local, act = entries[UNSHOWN_ENTRIES - 1].split(b" ", 3)
    cut = [b" ".join([worker, thread, b"2", b"-\n"]), b" ".join([worker, thread, b"%d" % (int(local) - 2), act])]
    given = whole(MANY_SETS, entries[:UNSHOWN_ENTRIES - 1] + cut + entries[UNSHOWN_ENTRIES:])
    shown = subprocess.run([program, "checkpoint", "--steps", str(UNSHOWN_STEPS)], input=MANY_SETS, stdout=subprocess.PIPE, check=False)
    return not shown.stdout.startswith(b"unshown") or judged(program, given, UNSHOWN_ENTRIES) != replayed(program, given)


def whole(text, entries):
    return text + b"%%history\n" + b"".join(entries)


def changed(entries):
    """What is changed in a history, and what comes of it."""
    last, middle = len(entries) - 1, len(entries) // 2
    _, thread, rest = entries[middle].split(b" ", 2)
    return [("another thread", entries[:middle] + [b"0 4000000000 " + rest] + entries[middle + 1:]),
            ("steps more", entries[:middle] + [b"0 " + thread + b" 255 -\n"] + entries[middle + 1:]),
            ("no last end", entries[:last] + [entries[last].rstrip()]),
            ("a bad line behind a wrong entry", [b"0 4000000000 1 -\n", *entries[1:], b"0 0 01 -\n"])]


def wrong(program, text, entries, sizes, is_changed):
    """What is answered otherwise than by `pat replay`, of the history and, if it says so, of ones that are changed or lack a piece."""
    found = []
    for size in sizes:
        rows = [("as it is", entries)]
        if is_changed:
            rows += [*changed(entries), ("a piece less", entries[:size] + entries[2 * size:])]
        for what, lines in rows:
            given = whole(text, lines)
            wanted, came = replayed(program, given), judged(program, given, size)
            if wanted != came:
                found.append(f"{what}, pieces of {size}: {came} for {wanted}")
    return found
