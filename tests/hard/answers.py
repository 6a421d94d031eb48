"""How the scripts of this folder call the program, and which answers docs/ and README name for each command."""
import re
import resource
import signal
import subprocess

PROGRAM = "crates/pat_cli/out/pat_cli"
USAGE = 2
NO_MEMORY = 5

TEXT = [
    r"too long", r"syntax error at (\d+)", r"number too wide at (\d+)", r"too deep at (\d+)",
    r"(?:unknown name|twice|wrong arity|wrong kind|foreign tag|empty sending type|too many tags) at (\d+)-(\d+)",
]
TYPES = [
    r"untypable at (\d+)-(\d+): (?:Alias|Order|Double|Branch|Payload|Covers|Unused|Polarity|Second)",
    r"unusable at (\d+)-(\d+)", r"too large: \S+", r"refuted at (\d+)-(\d+): word .+ not in .+", r"undecided at (\d+)-(\d+)",
]
BAD_TEXT = r"bad text at (\d+)"
RULES = "Shape|Empty|Alias|Use|Drop|Payload|Covers|Cert"
CHECKS = "Numbers|Kinds|Distinct|Order|Holder|Messages|Balance"
# The lines that refuse, by command.
REFUSALS = {
    "print": TEXT,
    "check": TEXT + TYPES,
    "derive": TEXT + TYPES,
    "run": TEXT + TYPES,
    "load": [],
    "verify": TEXT + [BAD_TEXT, rf"rejected at node \d+: (?:{RULES})"],
    "checkpoint": TEXT + TYPES + [BAD_TEXT, rf"rejected at node \d+: (?:{RULES})", rf"bad checkpoint: (?:{CHECKS})", r"refused at entry \d+", r"unshown at line \d+"],
    "resume": TEXT + [BAD_TEXT, rf"rejected at node \d+: (?:{RULES})", rf"bad checkpoint: (?:{CHECKS})"],
    "replay": TEXT + [BAD_TEXT, rf"rejected at node \d+: (?:{RULES})", rf"bad checkpoint: (?:{CHECKS})", r"refused at entry \d+"],
    "order": TEXT + [BAD_TEXT, r"refused at entry \d+", r"too many entries"],
}
# The statuses of a command that isn't refused, with good ports and enough memory.
STATUSES = {"run": {0, 6, 7, 8}, "load": {0, 6, 7, 8}, "resume": {0, 6, 7}}
ENDS = {0: r"done \d+(?: left \d+)?", 6: r"budget \d+", 7: r"waiting \d+(?: \d+)+", 8: r"full \d+"}


class Answer:
    """What a call of the program came to; `status` is None where it took too long, and negative where a signal ended it."""

    def __init__(self, words, given, status, text):
        self.words, self.given, self.status, self.text = words, given, status, text

    def lines(self):
        return self.text.decode("utf-8", "replace").split("\n")[:-1]

    def output(self):
        """The lines behind %%output."""
        lines = self.lines()
        return lines[lines.index("%%output") + 1:]

    def history(self):
        """The lines of the history, its first line aside."""
        lines = self.lines()
        return lines[1:lines.index("%%output")]


def call(program, words, given, seconds=20, environment=None):
    """Calls the program, which may take so many seconds of a processor (and, on a machine that does other work, longer by the clock)."""

    def limit():
        resource.setrlimit(resource.RLIMIT_CPU, (seconds, seconds))

    try:
        done = subprocess.run([program, *words], input=given, stdout=subprocess.PIPE, stderr=subprocess.DEVNULL,
                              timeout=30 * seconds, env=environment, preexec_fn=limit)
    except subprocess.TimeoutExpired:
        return Answer(words, given, None, b"")
    return Answer(words, given, None if done.returncode in (-signal.SIGXCPU, -signal.SIGKILL) else done.returncode, done.stdout)


def has(program, command):
    """Whether the program has this command."""
    words = ["load", "1"] if command == "load" else [command]
    return call(program, words, b"def main(): Unit { () }\n").status != USAGE


def wrong(answer):
    """Why the docs name no such answer, or None."""
    command = answer.words[0]
    if answer.status is None:
        return "no answer in time"
    if answer.status < 0:
        return f"ended by signal {-answer.status}"
    if answer.status == 1:
        return wrong_refusal(answer)
    if answer.status not in STATUSES.get(command, {0}):
        return f"status {answer.status}"
    lines = answer.lines()
    if command in ("check", "verify") and lines != ["accepted"]:
        return "another text than accepted"
    if command == "run" and not (lines[0] == "%%history" and "%%output" in lines and re.fullmatch(ENDS[answer.status], lines[-1])):
        return "a text that isn't a run's"
    return None


def wrong_refusal(answer):
    lines = answer.lines()
    if len(lines) != 1:
        return "a refusal of another number of lines than one"
    for pattern in REFUSALS[answer.words[0]]:
        found = re.fullmatch(pattern, lines[0])
        if found:
            places = [int(it) for it in found.groups()]
            # (the places of an empty span at the end are the input's length)
            return None if places == sorted(places) and all(it <= len(answer.given) for it in places) else "a place outside of the input"
    return f"a refusal that docs don't name: {lines[0][:80]}"


def verdict(answer):
    """The refusal without its places."""
    return re.sub(r"\d+(-\d+)?", "_", answer.lines()[0]) if answer.status == 1 else str(answer.status)
