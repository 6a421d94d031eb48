"""What the scripts read of the repository: its crates, what each stands on, and how large each is."""
import collections
import functools
import os
import re

ROOT = os.path.dirname(os.path.dirname(os.path.realpath(__file__)))

FUNCTION = re.compile(r"^\s*(?:pub(?:\([a-z]+\))? )?(?:const )?(?:unsafe )?fn ", re.M)
TEST = re.compile(r"^\s*#\[test\]", re.M)
TEST_MODULE = re.compile(r"^#\[cfg\(test\)\]\s*mod (\w+);", re.M)

Size = collections.namedtuple("Size", "lines test_lines functions edits tests is_program")


def read(path):
    with open(os.path.join(ROOT, path), encoding="utf-8", errors="replace") as file:
        return file.read()


@functools.lru_cache(maxsize=None)
def uses():
    """Each crate's name and the names on its line of crates.txt, those of the kit's crates too, in the order of the file."""
    found = {}
    for line in read("crates.txt").splitlines():
        name, colon, listed = line.partition("#")[0].partition(":")
        if colon:
            found[name.split()[0]] = listed.split()
    return found


@functools.lru_cache(maxsize=None)
def rooms():
    """The rooms of rooms.txt in its order: which other rooms each may import of, and its crates."""
    found, room = {}, None
    for line in read("rooms.txt").splitlines():
        line = line.partition("#")[0]
        if line.startswith(" "):
            found[room][1].extend(line.split())
        elif line.strip():
            room, _, stands_on = line.partition(":")
            found[room] = (set(found) if stands_on.split() == ["*"] else set(stands_on.split()), [])
    return found


def own(names):
    """Those of the names that are crates of the repository."""
    return [name for name in names if name in uses()]


@functools.lru_cache(maxsize=None)
def below(name):
    """All crates of the repository that the crate stands on."""
    found = set(own(uses()[name]))
    for other in own(uses()[name]):
        found |= below(other)
    return frozenset(found)


def reads():
    """How many files are read to tell by which sources each library was made: `rt` walks each way down through crates.txt
    anew, and reads on it all files of all crates."""
    known = {}

    def of(name):
        if name not in known:
            known[name] = len(files(name, "")) + sum(of(it) for it in own(uses_of[name]))
        return known[name]

    uses_of = uses()
    return sum(of(name) for name in uses_of if os.path.isfile(f"{ROOT}/crates/{name}/src/lib.rt"))


@functools.lru_cache(maxsize=None)
def files(name, ending, part=""):
    """The paths from the top of the crate's files with that ending, what is built left out."""
    found = []
    for folder, folders, names in os.walk(os.path.join(ROOT, "crates", name, part)):
        folders[:] = sorted(it for it in folders if it != "out")
        found += [os.path.relpath(os.path.join(folder, it), ROOT) for it in sorted(names) if it.endswith(ending)]
    return tuple(found)


def is_for_tests(path, tested):
    """Whether the file is of one of these modules, or of a module in one of them."""
    return not tested.isdisjoint(os.path.splitext(path)[0].split(os.sep)[3:])


@functools.lru_cache(maxsize=None)
def size(name):
    paths = files(name, ".rt", "src")
    texts = [read(path) for path in paths]
    lines = [len(text.splitlines()) for text in texts]
    tested = {it for text in texts for it in TEST_MODULE.findall(text)}
    return Size(
        lines=sum(lines),
        test_lines=sum(count for path, count in zip(paths, lines) if is_for_tests(path, tested)),
        functions=sum(len(FUNCTION.findall(text)) for text in texts),
        edits=len(files(name, ".edit", "must-fail")),
        tests=sum(len(TEST.findall(text)) for text in texts),
        is_program=os.path.isfile(os.path.join(ROOT, "crates", name, "src", "main.rt")),
    )


def proof_seconds(name):
    """What one proof of the crate from nothing takes of a processor, as measured: a start, and a share for each line of .rt."""
    here = size(name)
    return 9 + 0.14 * (here.lines - here.test_lines)


def gate_seconds(name):
    """What the whole gate from nothing takes of a processor for the crate, as measured (docs/MEASURED.md)."""
    here, proof = size(name), proof_seconds(name)
    seconds = proof
    if here.tests:
        # The crate is proved once more, with its tests in it.
        seconds += 9 + 0.14 * here.lines + 20 * here.tests
    if here.is_program:
        # Two compilers build it.
        seconds += 40
    if here.edits == 1:
        seconds += 1.1 * proof + 15
    elif here.edits:
        # One more whole proof, from which each edit starts; then for each a check in which all but it is kept.
        unchanged = 5 + 0.003 * here.lines + 0.0000045 * here.lines**2
        seconds += 1.25 * proof + unchanged + here.edits * (unchanged + 16)
    return seconds
