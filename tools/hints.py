"""What the sources say of inlining. The module of `rt try` doesn't carry it; the proved program is compiled with it."""
import glob
import os
import re

# How the compiler names what stands before a function.
HINTS = {"inline": "inlinehint", "inline(always)": "alwaysinline", "inline(never)": "noinline", "cold": "cold"}
# The attribute, then others and comments, then the function's name; and the head of an implementation.
SAID = re.compile(r"#\[(?P<word>inline(?:\((?:always|never)\))?|cold)\](?:(?!\bfn )[^{}])*?\bfn (?P<name>\w+)")
IMPLEMENTATION = re.compile(r"^(?:unsafe )?impl\b(?P<head>[^{]*)", re.M)
HEAD = re.compile(r'define [^"]*@(?P<name>"[^"]+")\(.*\)(?P<attributes> #\d+ \{)$')
GENERIC = re.compile(r"<[^<>]*>")


def type_name(text):
    """How the module writes a type's name, or a trait's, in the names of its functions."""
    shared, words = "Ref" if text.startswith("&") else "", re.findall(r"\[|\w+", text)
    if "[" in words:
        return f"{shared}Slice"
    if not words or len(words[-1]) == 1:
        # A parameter of the implementation, or no name.
        return shared or "Any"
    return shared + words[-1][0].upper() + words[-1][1:]


def owner_of(head):
    """How the module names what the functions of an implementation belong to: by the type, then the trait, if there is one."""
    before = ""
    while before != head:
        before, head = head, GENERIC.sub("", head)
    words = re.split(r"\bwhere\b|\brequires\b|\bensures\b", head)[0].split(" for ")
    return "".join(type_name(it.strip()) for it in reversed(words) if it.strip())


def module_of(path, top, crate):
    """The last name of the module that a file holds, in this folder of a crate's sources."""
    names = [crate, *os.path.relpath(path, top).removesuffix(".rt").split("/")]
    return names[-2] if names[-1] in ("lib", "main", "mod") else names[-1]


def said_in(text):
    """Of each function that an attribute stands before: what it belongs to, if it is in an implementation, its name, and the hint."""
    heads = [(it.start(), it["head"]) for it in IMPLEMENTATION.finditer(text)]
    for found in SAID.finditer(text):
        is_indented = found.start() > 0 and text[found.start() - 1] != "\n"
        before = [head for at, head in heads if at < found.start()]
        yield owner_of(before[-1]) if is_indented and before else None, found["name"], HINTS[found["word"]]


def of_crates(folders):
    """The hints in the sources of crates, given the folder of each; by the crate, what the function belongs to, and its name."""
    said = {}
    for crate, top in folders.items():
        for path in sorted(glob.glob(f"{glob.escape(top)}/**/*.rt", recursive=True)):
            with open(path, encoding="utf-8") as file:
                for owner, name, hint in said_in(file.read()):
                    said[crate, owner or module_of(path, top, crate), name] = hint
    return said


def hint_for(said, function):
    """The hint for the function that has this name in the module, if there is one."""
    path = function.strip('"').split("::<")[0].split("::")
    return said.get((path[0], path[-2], path[-1])) if len(path) > 1 else None


def with_hint_of(said, line):
    """A line of the module; if it is a function's first one, with the hint for the function."""
    found = HEAD.match(line)
    hint = hint_for(said, found["name"]) if found else None
    return f"{line[: found.start('attributes')]} {hint}{line[found.start('attributes') :]}" if hint else line


def goes_into_callers(head):
    return " alwaysinline " in head
