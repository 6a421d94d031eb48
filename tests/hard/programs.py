"""Makes programs at random, and changes texts at random, from a given random.Random."""
import re

NAMES = ["a", "b", "c", "x", "y", "self", "to", "I", "J", "f", "g", "main", "m", "n", "k"]
WORDS = ("interface def let in if else print new spawn guard free fail receive from true false Unit Bool Int String"
         " ( ) { } [ ] , ; : . + - * < ! ? = == -> 0 1 2 9223372036854775807 9223372036854775808 \"\" \"é\\\\\" //").split(" ")
TOKEN = re.compile(rb'\s+|//[^\n]*|\w+|"(?:[^"\\]|\\.)*"|==|->|.', re.S)


class Maker:
    """Programs whose names and kinds are mostly right, with mailboxes that are mostly used as their types ask."""

    def __init__(self, random):
        self.random = random

    def program(self):
        self.interfaces = [self.interface(n) for n in range(self.random.randint(1, 3))]
        self.functions = []
        makers = [self.server, self.exchange, self.computer, self.pumper]
        for n in range(self.random.randint(1, 4)):
            self.random.choice(makers)(f"f{n}")
        calls = "; ".join(f"{name}()" for name in self.entries())
        main = f"def main(): Unit {{ {calls or '()'} }}"
        declarations = [self.declared(it) for it in self.interfaces] + [text for _, _, text in self.functions] + [main]
        if self.random.random() < 0.3:
            self.random.shuffle(declarations)
        return ("\n".join(declarations) + "\n").encode()

    def interface(self, n):
        name = f"I{n}"
        tags = [f"{name.lower()}_{'abcd'[k]}" for k in range(self.random.randint(1, 4))]
        payloads = {}
        for tag in tags:
            payloads[tag] = [self.random.choice(["Int", "Bool", "String"]) for _ in range(self.random.choice([0, 0, 1, 2]))]
        return name, tags, payloads

    def declared(self, interface):
        name, tags, payloads = interface
        heads = [f"{tag}({', '.join(payloads[tag])})" for tag in tags]
        return f"interface {name} {{ {', '.join(heads)} }}"

    def entries(self):
        """The functions without parameters, which main calls."""
        return [name for name, is_entry, _ in self.functions if is_entry]

    def value(self, kind, depth=2):
        pick = self.random.random()
        if kind == "Int":
            if depth and pick < 0.4:
                return f"({self.value('Int', depth - 1)} {self.random.choice('+-*')} {self.value('Int', depth - 1)})"
            return str(self.random.choice([0, 1, 2, 7, 255, 9223372036854775807]))
        if kind == "Bool":
            if depth and pick < 0.5:
                return f"({self.value('Int', depth - 1)} {self.random.choice(['<', '=='])} {self.value('Int', depth - 1)})"
            return self.random.choice(["true", "false"])
        return self.random.choice(['""', '"a b"', '"\\"\\\\"', '"é"'])

    def send(self, target, interface, tag):
        return f"{target} ! {tag}({', '.join(self.value(kind) for kind in interface[2][tag])})"

    def received(self, interface, tag, source, body):
        names = [f"p{n}" for n in range(len(interface[2][tag]))]
        return f"receive {tag}({', '.join(names)}) from {source} -> {body}"

    def expecting(self, name, interface, word):
        """A guard, and others in its clauses, that receives the messages of the word in the order of the list."""
        if not word:
            return f"free({name})"
        tag, rest = word[0], word[1:]
        shown = word[:]
        self.random.shuffle(shown)
        return f"guard {name} : {'.'.join(shown)} {{ {self.received(interface, tag, name, self.expecting(name, interface, rest))} }}"

    def exchange(self, name):
        """A mailbox, threads that send to it, and guards that receive a word; sometimes one message is lacking, or one too many."""
        interface = self.random.choice(self.interfaces)
        word = [self.random.choice(interface[1]) for _ in range(self.random.randint(0, 4))]
        sent = word[:]
        self.random.shuffle(sent)
        pick = self.random.random()
        if pick < 0.1:
            sent = sent[1:]
        elif pick < 0.2:
            sent.append(self.random.choice(interface[1]))
        sends = []
        for tag in sent:
            text = self.send("a", interface, tag)
            sends.append(f"spawn {{ {text} }}" if self.random.random() < 0.4 else text)
        body = "; ".join([*sends, self.expecting("a", interface, word)])
        self.functions.append((name, True, f"def {name}(): Unit {{ let a = new[{interface[0]}] in {body} }}"))

    def server(self, name):
        """A function that receives any number of messages, and one that makes its mailbox, spawns it and sends."""
        interface = self.random.choice(self.interfaces)
        tags = interface[1]
        stars = ".".join(f"*{tag}" for tag in tags) if self.random.random() < 0.7 else f"*({' + '.join(tags)})"
        clauses = ["free -> ()"] + [self.received(interface, tag, "self", f"{name}(self)") for tag in tags]
        if self.random.random() < 0.1:
            clauses.pop(self.random.randrange(len(clauses)))
        self.random.shuffle(clauses)
        written = self.random.choice(["", "", "", stars])
        guard = f"guard self : {stars} {{ {' '.join(clauses)} }}"
        self.functions.append((name, False, f"def {name}(self: {interface[0]}?{written}): Unit {{ {guard} }}"))
        if clauses:
            sends = "; ".join([f"spawn {{ {name}(a) }}"] + [self.send("a", interface, self.random.choice(tags)) for _ in range(self.random.randint(0, 4))])
            self.functions.append((f"{name}_user", True, f"def {name}_user(): Unit {{ let a = new[{interface[0]}] in {sends} }}"))

    def pumper(self, name):
        """A function that sends so many times and calls itself; some never end."""
        interface = self.random.choice(self.interfaces)
        tag = self.random.choice(interface[1])
        written = self.random.choice(["", "", f"*{tag}"])
        ends = self.random.random() < 0.8
        call = f"{self.send('a', interface, tag)}; {name}(a, n - 1)"
        body = f"if n == 0 {{ () }} else {{ {call} }}" if ends else call
        self.functions.append((name, False, f"def {name}(a: {interface[0]}!{written}, n: Int): Unit {{ {body} }}"))
        drain = f"{name}_drain"
        clause = self.received(interface, tag, "a", f"{drain}(a)")
        self.functions.append((drain, False, f"def {drain}(a: {interface[0]}?): Unit {{ guard a : *{tag} {{ free -> () {clause} }} }}"))
        begin = f"let a = new[{interface[0]}] in spawn {{ {drain}(a) }}; {name}(a, {self.random.randint(0, 9)})"
        self.functions.append((f"{name}_user", True, f"def {name}_user(): Unit {{ {begin} }}"))

    def computer(self, name):
        """A function that computes and prints."""
        kind = self.random.choice(["Int", "Bool", "String"])
        other = f"let y = {{ print({self.value('Int')}); x }} in print(y)"
        body = f"let x = {self.value(kind)} in if {self.value('Bool')} {{ print(x) }} else {{ {other} }}"
        self.functions.append((name, True, f"def {name}(): Unit {{ {body} }}"))


def straight(random):
    """A program of one function that binds, computes and prints numbers."""
    maker = Maker(random)
    names = []

    def number():
        return random.choice(names) if names and random.random() < 0.5 else maker.value("Int")

    parts = []
    for n in range(random.randint(0, 300 if random.random() < 0.1 else 8)):
        if random.random() < 0.5:
            bound = f"{number()} {random.choice('+-*')} {number()}"
            if random.random() < 0.2:
                bound = f"{{ print({number()}); {bound} }}"
            parts.append(f"let x{n} = {bound} in ")
            names.append(f"x{n}")
        else:
            parts.append(f"print({number()}); ")
    return f"def main(): Unit {{ {''.join(parts)}() }}\n".encode()


def soup(random):
    """Tokens at random: no program, but for a wonder."""
    text = " ".join(random.choice(WORDS + NAMES) for _ in range(random.randint(0, 60)))
    return text.encode()


def bytes_at_random(random):
    return bytes(random.randrange(256) for _ in range(random.randint(0, 200)))


def deep(random):
    """Texts near the limits of depth."""
    n = random.choice([100, 252, 253, 254, 300])
    k = random.choice([1000, 4094, 4095, 4096, 5000])
    return random.choice([
        f"def main(): Unit {{ print({'(' * n}5{')' * n}) }}\n",
        f"def main(): Unit {{ print({'+'.join(['1'] * n)}) }}\n",
        f"def main(): Unit {{ {'(); ' * k}() }}\n",
        f"def main(): Unit {{ {'let x = 1 in ' * k}print(x) }}\n",
        f"def main(): Unit {{ {'if true { ' * n}(){' } else { () }' * n} }}\n",
        f"interface I {{ m() }}\ndef f(a: I?{'*(' * n}m{')' * n}): Unit {{ f(a) }}\ndef main(): Unit {{ () }}\n",
        f"interface I {{ m() }}\ndef main(): Unit {{ let a = new[I] in {'a ! m(); ' * k}guard a : *m {{ free -> () }} }}\n",
    ]).encode()


def change(random, text, others):
    """The text with a few changes: tokens taken out, doubled, exchanged, replaced; bytes changed; a piece of another text put in."""
    for _ in range(random.choice([1, 1, 1, 2, 3, 8])):
        tokens = TOKEN.findall(text)
        if not tokens:
            return text
        at = random.randrange(len(tokens))
        pick = random.randrange(11)
        if pick == 0:
            del tokens[at:at + random.choice([1, 1, 2, 5])]
        elif pick == 1:
            tokens.insert(at, tokens[random.randrange(len(tokens))])
        elif pick == 2:
            tokens[at] = tokens[random.randrange(len(tokens))]
        elif pick == 3:
            other = random.randrange(len(tokens))
            tokens[at], tokens[other] = tokens[other], tokens[at]
        elif pick == 4:
            tokens[at] = b" " + random.choice(WORDS + NAMES).encode() + b" "
        elif pick in (8, 9, 10):
            alike = [it for it in tokens if it[:1].isalpha() == tokens[at][:1].isalpha() and it[:1].isdigit() == tokens[at][:1].isdigit()]
            tokens[at] = random.choice(alike)
        elif pick == 5 and others:
            pieces = TOKEN.findall(random.choice(others))
            begin = random.randrange(len(pieces) or 1)
            tokens[at:at] = pieces[begin:begin + random.randint(1, 30)]
        elif pick == 6:
            text = b"".join(tokens)
            place = random.randrange(len(text))
            text = text[:place] + bytes([random.randrange(256)]) + text[place + 1:]
            continue
        elif pick == 7:
            text = b"".join(tokens)
            text = text[:random.randrange(len(text) + 1)]
            continue
        text = b"".join(tokens)
    return text


SEND = re.compile(rb"\w+ ! \w+\([^()]*\); ")
PATTERN = re.compile(rb"(?<=[?!:.(+*]) ?\*?\w+(?= \{|[,):.]| \+)")


def nudge(random, text):
    """The text with one small change after which it is a program still, more often than not: a send is taken out or doubled, a tag is
    another one, a part of a pattern is starred or not, a number is another one; or any change."""
    pick = random.randrange(6)
    places = list((SEND, SEND, re.compile(rb"(?<= ! )\w+"), PATTERN, re.compile(rb"\b\d+\b"), TOKEN)[pick].finditer(text))
    if not places or pick == 5:
        return change(random, text, [])
    place = random.choice(places)
    piece = place.group()
    if pick == 0:
        piece = b""
    elif pick == 1:
        piece += piece
    elif pick == 2:
        piece = random.choice(places).group()
    elif pick == 3:
        piece = piece.replace(b"*", b"") if b"*" in piece else b"*" + piece.strip()
    else:
        piece = random.choice([b"0", b"1", b"2", b"7", random.choice(places).group()])
    return text[:place.start()] + piece + text[place.end():]


# What a piece of a derivation or history may be changed to: pieces of its own sort, and for numbers others now and then.
SMALL = [b"0", b"1", b"2", b"3"]
LARGE = [b"00", b"255", b"256", b"257", b"65536", b"4294967295", b"4294967296", b"99999999999999999999"]
SORTS = [
    (rb"\d+", SMALL), (rb"\d+", SMALL), (rb"\d+", LARGE),
    (rb"sec|ret", [b"sec", b"ret"]), (rb"[!?]", [b"!", b"?"]), (rb"\bUnit\b|\bInt\b", [b"Unit", b"Int", b"Bool", b"String"]),
    (rb"(?<=[!?. *(])\w+(?= sec| ret|\.| \+|\))", [b"0", b"1", b"m", b"n", b"*m", b"*n", b"(m + n)", b"m.n", b"$1", b"$2"]),
    (rb"(?<=\{)v\d+: [^,}]*,? ?|, v\d+: [^,}]*", [b""]), (rb" [cg]\(?[^ ]*$", [b"", b" g1", b" g2", b" c()", b" c(0:0)", b" c(0:1;1)"]),
    (rb"\bsend\b|\bspawn\b|\bprint\b|\bend\b|\bnew\b|\bfree\b|-|receive \d+",
     [b"send", b"spawn", b"print", b"end", b"new", b"free", b"-", b"receive 0", b"receive 1", b"receive 2"]),
]


def exchange(random, line, pattern, instead):
    """The line with one place of the pattern replaced by one of the pieces."""
    places = list(re.finditer(pattern, line))
    # (mostly not the first two words, which number a derivation's lines)
    behind = [it for it in places if line[:it.start()].count(b" ") >= 2]
    places = behind if behind and random.random() < 0.9 else places
    if not places:
        return line
    place = random.choice(places)
    return line[:place.start()] + random.choice(instead) + line[place.end():]


# The same of a checkpoint.
VALUES = [b"unit", b"true", b"false", b"0", b"-1", b"9223372036854775807", b"#0", b"#1", b"#2", b'""', b'"a, #0)"']
CHECKPOINT_SORTS = [
    (rb"\d+", SMALL), (rb"\d+", SMALL), (rb"\d+", LARGE + [b"4000000000", b"4000000001"]), (rb"(?<=#)\d+", SMALL), (rb"(?<=v)\d+", SMALL),
    (rb"(?<==)[^,}]+|(?<=value )\S+|(?<=\()[^,)]+|(?<=, )[^,)}]+", VALUES), (rb"(?<=\{)v\d+=[^,}]*,? ?|, v\d+=[^,}]*", [b""]),
    (rb"(?<=\{)", [b"v0=#0, ", b"v1=1, "]), (rb"^frame (?:v\d+|-)", [b"frame -", b"frame v0", b"frame v1"]),
    (rb" (?:g\d+|c\(\S*)$|$", [b"", b" g1", b" g2", b" c()", b" c(0:0)", b" c(0:1)", b" c(0:1;1)"]),
    (rb"^thread (\d+) .*$", [b"thread 0 value unit", b"thread 1 value unit", b"thread 0 node 0 {}"]),
]


def change_lines(random, text, sorts=SORTS):
    """A text of lines with a few changes: lines taken out, doubled, exchanged; numbers, types and acts changed."""
    lines = text.split(b"\n")
    for _ in range(random.choice([1, 1, 2, 4])):
        at = random.randrange(len(lines))
        pick = random.randrange(20)
        if pick == 0 and len(lines) > 1:
            del lines[at]
        elif pick == 1:
            lines.insert(at, lines[random.randrange(len(lines))])
        elif pick == 2:
            other = random.randrange(len(lines))
            lines[at], lines[other] = lines[other], lines[at]
        elif pick == 3:
            lines[at] = change(random, lines[at], [])
        else:
            lines[at] = exchange(random, lines[at], *random.choice(sorts))
    return b"\n".join(lines)
