"""Runs of ./pat-otp for tests: with the runtime as it is, with messages that are held back, and with runtimes that are wrong."""
import glob
import os
import re
import shutil
import signal
import subprocess
import tempfile
import threading
import time

ROOT = os.path.realpath(os.path.join(os.path.dirname(os.path.realpath(__file__)), "..", ".."))
COMMAND = os.path.join(ROOT, "pat-otp")
SOURCES = os.path.join(ROOT, "otp", "src")
# A run of a test takes a second or two, and may take much longer where the machine does other work.
SECONDS = 300
# There nodes may also be too slow to start: then a run is tried again, so often.
TRIES_AGAIN = 2

HELD = "erlang:spawn(fun() -> receive after rand:uniform(4) - 1 -> {} ! Message end end)"
# Each message is held back by itself for some milliseconds, so that none keeps its place among the others; and a mailbox's weight
# is 3, so that it has to be split further all the time. Threads are held back as soon as 50 of their entries aren't written. And what
# is final is written stamp by stamp, so that a loss might have cut it off at each: then each entry has to be behind its causes.
DELAYS = [
    ("pat_post.erl", "    To ! Message,\n", f"    {HELD.format('To')},\n"),
    ("pat_host.erl", "    Thread ! Message,\n", f"    {HELD.format('Thread')},\n"),
    ("pat_weight.erl", "(1 bsl 56)", "3"),
    ("pat_log.erl", "-define(AHEAD, 5000000).", "-define(AHEAD, 500)."),
    ("pat_merge.erl", "pat_history:write(Floor, lists:append(lists:reverse(Runs))),\n",
     "pat_history:write(Cut + 1, lists:append(lists:reverse(Runs))),\n"
     "            [pat_history:write(Stamp, []) || Stamp <- lists:seq(Cut + 2, Floor)],\n"),
]

# Runtimes with one thing wrong in each. `pat replay`, or what is compared with it, has to find that out.
WRONG = {
    "free without a look at weights": [
        ("pat_mailbox.erl", "=:= 0 andalso pat_weight:add(Home, Weight) of\n        Whole -> Released;",
         "=:= 0 of\n        true -> Released;"),
        ("pat_mailbox.erl", "    Whole = pat_weight:whole(),\n", "    _ = {Home, Weight},\n")],
    "free not behind where the names went": [
        ("pat_mailbox.erl", "released = max(Released, Stamp)}", "released = min(Released, Stamp)}")],
    "receive not behind its send": [
        ("pat_guard.erl", "pat_entries:note(Stamp, 0, {'receive'", "pat_entries:note(min(Stamp, 0), 0, {'receive'")],
    "no weight with a message": [
        ("pat_thread.erl", "Sends, Stamp}, Weight}),", "Sends, Stamp}, 0}),\n    give_back(element(1, Target), Weight),")],
    "names that go in local steps given back at once": [
        ("pat_thread.erl", "put(gone, [{Name, Weight} | get(gone)]), ok", "give_back(Name, Weight)")],
    "payloads without weight": [
        ("pat_thread.erl", "    Weight = pat_names:hand_over(Target),\n",
         "    [give_back(Name, Part) || {Name, Part} <- Weights],\n    Weight = pat_names:hand_over(Target),\n"),
        ("pat_thread.erl", "{Tag, Values, Weights, get(thread), Sends, Stamp}",
         "{Tag, Values, [{Name, 0} || {Name, _} <- Weights], get(thread), Sends, Stamp}")],
    "a local step too many": [
        ("pat_guard.erl", "{'receive', From, Sent}),\n", "{'receive', From, Sent}),\n    pat_entries:spend(1),\n")],
    "a local step too few": [
        ("pat_entries.erl", "(Steps bsl ?STEPS)", "(max(0, Steps - 1) bsl ?STEPS)")],
    "lines in another order": [
        ("pat_order.erl", "{How, {Received, lists:reverse(Shown)}, ", "{How, {Received, Shown}, ")],
    "a promise before all entries are there": [
        ("pat_log.erl", "        0 -> self() ! {closed, Floor};\n        _ -> erlang:send_after(?LOOK, self(), look)",
         "        _ -> self() ! {closed, Floor}")],
    "entries that aren't above the floor": [
        ("pat_entries.erl", "max(Clock, atomics:get(Cells, ?FLOOR))", "Clock")],
    "a thread not behind its spawn": [
        ("pat_thread.erl", "pat_entries:begin_thread(Thread, Stamp)", "pat_entries:begin_thread(Thread, min(Stamp, 0))")],
    "rest by one look": [
        ("pat_rest.erl", "{Same, Same, 0} = Last -> pat_run:at_rest(Epoch, Last)", "{_, _, 0} = Now -> pat_run:at_rest(Epoch, Now)"),
        ("pat_run.erl", "{How, Counts} -> stop(How, State);\n        _ -> pat_rest:look_again(), {noreply, State}",
         "{How, _} -> stop(How, State)")],
    "a message twice": [
        ("pat_post.erl", "    To ! Message,\n",
         "    case Message of {message, _, _, _} -> To ! Message; _ -> ok end,\n    To ! Message,\n")],
    "lost entries": [
        ("pat_log.erl", "rouse(State#state{runs = [Run | Runs],",
         "rouse(State#state{runs = case rand:uniform(4) of 1 -> Runs; _ -> [Run | Runs] end,")],
}

# The head's merger fails, so that the head ends.
FAILING_HEAD = [("pat_merge.erl", "    #{Place := #node{reports = Reports} = Node} = Nodes,\n",
                 "    #{Place := #node{reports = Reports} = Node} = Nodes,\n    true = State#state.cut < 1000,\n")]

# The second node's application starts later than the head waits for it.
SLOW_START = [
    ("pat_run.erl", "-define(PATIENCE, 60000).", "-define(PATIENCE, 300)."),
    ("pat_otp.erl", "start() ->\n", "start() ->\n    _ = lists:prefix(\"pat_2_\", atom_to_list(node())) andalso timer:sleep(60000),\n"),
]

# Where the nodes are at rest, the first call upon the limit isn't answered in time, as on a machine that does much else.
SLOW_ANSWER = [("pat_limit.erl", "is_short() -> gen_server:call(?MODULE, is_short).", """is_short() ->
    put(asked, true) =:= true orelse exit({timeout, {gen_server, call, [?MODULE, is_short]}}),
    gen_server:call(?MODULE, is_short).""")]

# Two nodes lose each other while both keep the head, once for each epoch up to the given one.
PARTED = [("pat_node.erl", "    [Other || Other <- Others, net_kernel:connect_node(Other) =/= true].\n",
           """    _ = Place =:= 2 andalso maps:get(epoch, Run) =< PARTED_EPOCHS andalso spawn(fun() ->
        timer:sleep(PARTED_AFTER), erlang:disconnect_node(element(tuple_size(Nodes), Nodes)) end),
    [Other || Other <- Others, net_kernel:connect_node(Other) =/= true].\n""")]

# A node falls when it makes an entry with a stamp as high: PAT_FALLS has words PLACE:STAMP.
FALLS = [("pat_entries.erl", "    Open#noted{clock = Stamp", """    #{place := Place} = pat_cells:run(),
    _ = [halt(9, [{flush, false}])
         || Word <- string:lexemes(os:getenv("PAT_FALLS", ""), " "), [Where, When] <- [string:lexemes(Word, ":")],
            list_to_integer(Where) =:= Place, list_to_integer(When) =< Stamp],
    Open#noted{clock = Stamp""")]

# Runtimes with one thing wrong in each where the run goes on after a loss.
WRONG_AFTER_LOSS = {
    "a message is lost": [
        ("pat_configuration.erl", "Cut, Names, Rest) end, Homes, Messages),",
         "Cut, Names, Rest) end, Homes, lists:nthtail(min(1, length(Messages)), Messages)),")],
    "each thread begins twice": [
        ("pat_resume.erl", "?POSTED, Threads)", "?POSTED, 2 * Threads)"),
        ("pat_resume.erl", "fun({Pid, Word}) -> Pid ! Word end, Words).",
         "fun({Pid, Word}) -> Pid ! Word, element(1, Word) =:= thread andalso (spawn(?MODULE, keeper, []) ! Word) end, Words).")],
    "names without weight": [
        ("pat_configuration.erl", "{Part, Rest} = pat_weight:share(maps:get(Mailbox, Homes))",
         "{Part, Rest} = {0, maps:get(Mailbox, Homes)}")],
    "names with too much weight": [
        ("pat_configuration.erl", "{Part, Rest} = pat_weight:share(maps:get(Mailbox, Homes))",
         "{Part, _} = pat_weight:share(maps:get(Mailbox, Homes)), Rest = maps:get(Mailbox, Homes)")],
    "lines are shown twice": [
        ("pat_history.erl", "    ok = file:write(user, Shown),\n",
         "    ok = file:write(user, Shown),\n    put(last, [case get(last) of undefined -> []; Last -> Last end, Shown]),\n"),
        ("pat_history.erl", "handle_call({begin_epoch, Nodes, Threads, Messages}, _, #state{order = Order} = State) ->\n",
         "handle_call({begin_epoch, Nodes, Threads, Messages}, _, #state{order = Order} = State) ->\n    "
         "ok = file:write(user, case get(last) of undefined -> []; Last -> Last end),\n")],
    "frames are forgotten": [
        ("pat_thread.erl", "go_on(_, [], Value) -> Value;", "go_on(_, Frames, Value) when is_list(Frames) -> Value;")],
    "threads of the epoch before go on": [
        ("pat_resume.erl", "fun(Pid) -> monitor(process, Pid), exit(Pid, kill) end, Ours),", "fun(_) -> ok end, Ours),"),
        ("pat_resume.erl", "    lists:foreach(fun(_) -> receive {'DOWN', _, process, _, _} -> ok end end, Ours).", "    ok.")],
    "entries behind the cut are kept": [
        ("pat_merge.erl", "    {reply, Cut, State#state{epoch = over}};",
         "    pat_history:write(State#state.newest, lists:append(lists:reverse(State#state.runs))),\n"
         "    {reply, Cut, State#state{epoch = over}};")],
}


def runtime(folder, name, edits):
    """A compiled runtime with these edits; its folder."""
    there = os.path.join(folder, re.sub(r"\W", "_", name), "ebin")
    changed = {}
    for file, old, new in edits:
        text = changed.get(file) or open(os.path.join(SOURCES, file), encoding="utf-8").read()
        if text.count(old) != 1:
            raise RuntimeError(f"{name}: {file} has {text.count(old)} times {old!r}")
        changed[file] = text.replace(old, new)
    shutil.copytree(os.path.join(ROOT, "otp", "ebin"), there)
    for file, text in changed.items():
        path = os.path.join(os.path.dirname(there), file)
        with open(path, "w", encoding="utf-8") as out:
            out.write(text)
        subprocess.run(["erlc", "+nowarn_unused_vars", "-I", os.path.join(ROOT, "otp", "include"), "-o", there, path], check=True)
    return there


def has_application(name):
    """Whether this Erlang has it: Debian's `erlang-base` alone has no `ssl`."""
    done = subprocess.run(["erl", "-noinput", "-eval", f"halt(case code:lib_dir({name}) of {{error, _}} -> 1; _ -> 0 end)."], check=False)
    return done.returncode == 0


def hosts(chance, commands):
    """A file of hosts, all of them this one: the head, and a node for each command, or without one where that is empty."""
    ports = chance.sample(range(20000, 32000), len(commands))
    lines = [f"127.0.0.1 {port} {command}" if command else "127.0.0.1 -" for port, command in zip(ports, commands)]
    return "\n".join(["127.0.0.1 -", *lines, ""]).encode()


def compiled(program):
    """Has the runtime compiled, as the command does it when it is first called."""
    with tempfile.NamedTemporaryFile("w", suffix=".pat") as file:
        file.write("def main(): Unit { () }\n")
        file.flush()
        subprocess.run([COMMAND, file.name], check=True, stdout=subprocess.DEVNULL, timeout=SECONDS, env=dict(os.environ, PAT=program))


class Run:
    """What came of a run: `status`, `lines` (the last is the outcome), `said`, `history`, and `left`, processes that it left. It is
    tried again where its nodes didn't start; `slow_starts` says how often."""

    def __init__(self, program, file, words=(), ebin=None, disturb=None, falls=None, seconds=SECONDS):
        self.slow_starts = 0
        self.run_once(program, file, words, ebin, disturb, falls, seconds)
        while self.is_unstarted() and self.slow_starts < TRIES_AGAIN:
            self.slow_starts += 1
            self.run_once(program, file, words, ebin, disturb, falls, seconds)

    def is_unstarted(self):
        return self.status == 5 and "not all nodes could be started" in self.said

    def run_once(self, program, file, words, ebin, disturb, falls, seconds):
        self.folder = tempfile.mkdtemp(prefix="pat-otp-test-")
        out = os.path.join(self.folder, "history")
        environment = dict(os.environ, PAT=program, TMPDIR=self.folder)
        if ebin:
            environment["PAT_OTP_RUNTIME"] = ebin
        if falls:
            environment["PAT_FALLS"] = " ".join(f"{place}:{stamp}" for place, stamp in falls.items())
        process = subprocess.Popen([COMMAND, *words, "--out", out, file], env=environment,
                                   stdout=subprocess.PIPE, stderr=subprocess.PIPE)
        self.nodes = []
        disturber = threading.Thread(target=disturb, args=(self,)) if disturb else None
        if disturber:
            disturber.start()
        try:
            output, said = process.communicate(timeout=seconds)
            self.status = process.returncode
        except subprocess.TimeoutExpired:
            size = self.history_size()
            time.sleep(10)
            grown = self.history_size() - size
            process.terminate()
            output, said = process.communicate()
            self.status = f"no end, and {grown} bytes of history in the last ten seconds"
        if disturber:
            disturber.join()
        self.lines = output.decode().splitlines()
        self.said = said.decode()
        self.history = open(out, encoding="utf-8").read() if os.path.exists(out) else ""
        self.left = processes_at(self.folder)
        for pid in self.left:
            send_signal(pid, signal.SIGKILL)
        shutil.rmtree(self.folder, ignore_errors=True)

    def history_size(self):
        found = glob.glob(os.path.join(self.folder, "pat-otp-*", "history"))
        return os.path.getsize(found[0]) if found else 0

    def pids(self, patience=30):
        """The processes of the nodes, the head's last; empty where it ended before."""
        until = time.time() + patience
        while time.time() < until:
            found = glob.glob(os.path.join(self.folder, "pat-otp-*", "pids"))
            if found:
                try:
                    self.nodes = [int(it) for it in open(found[0], encoding="ascii").read().split()]
                    return self.nodes
                except OSError:
                    return []
            time.sleep(0.01)
        return []

    def began(self, size, patience=15):
        """Waits until the history has so many bytes, or for so many seconds of its being there; whether the run is still on."""
        begun = None
        while begun is None or time.time() < begun + patience:
            found = glob.glob(os.path.join(self.folder, "pat-otp-*", "history"))
            if found:
                begun = begun or time.time()
                try:
                    if os.path.getsize(found[0]) >= size:
                        return True
                except OSError:
                    return False
            elif not any(is_alive(it) for it in self.nodes):
                return False
            time.sleep(0.002)
        return True

    def entries(self):
        lines = self.history.splitlines()
        return lines[1:lines.index("%%output")] if "%%output" in lines else []


def processes_at(folder):
    """Those whose home is below the folder, as that of nodes is."""
    found = []
    for name in filter(str.isdigit, os.listdir("/proc")):
        try:
            with open(f"/proc/{name}/environ", "rb") as file:
                if f"HOME={folder}/".encode() in file.read() and is_alive(name):
                    found.append(int(name))
        except OSError:
            pass
    return found


def is_alive(pid):
    try:
        with open(f"/proc/{pid}/stat", encoding="ascii", errors="replace") as file:
            return file.read().rsplit(")", 1)[1].split()[0] not in "ZX"
    except OSError:
        return False


def send_signal(pid, number):
    try:
        os.kill(pid, number)
    except ProcessLookupError:
        pass


def kill(*when):
    """Disturbs a run: kills nodes (by their places; 0 is the head), each when the history has so many bytes."""
    def disturb(run):
        pids = run.pids()
        for place, bytes_written in sorted(when, key=lambda it: it[1]):
            if pids and run.began(bytes_written):
                send_signal(pids[place - 1], signal.SIGKILL)
    return disturb


def suspend(which, bytes_written, seconds):
    """Disturbs a run: a node says nothing for so long, and then wakes up."""
    def disturb(run):
        pids = run.pids()
        if pids and run.began(bytes_written):
            send_signal(pids[which - 1], signal.SIGSTOP)
            time.sleep(seconds)
            send_signal(pids[which - 1], signal.SIGCONT)
    return disturb


def is_safe(program, text):
    return subprocess.run([program, "check"], input=text, stdout=subprocess.PIPE, check=False).returncode == 0


def replayed(program, text, history):
    """What `pat replay` says of a run's text, as lines."""
    done = subprocess.run([program, "replay"], input=text + b"\n" + history.encode(), stdout=subprocess.PIPE, check=False)
    return done.stdout.decode().splitlines()


def ended(program, text):
    """How `pat run` ends, in a word."""
    done = subprocess.run([program, "run", "--steps", "1000000"], input=text, stdout=subprocess.PIPE, check=False)
    return done.stdout.decode().splitlines()[-1].split(" ")[0]


def most_pending(entries):
    """How many messages were pending at most."""
    most = now = 0
    for it in entries:
        act = it.split(" ")[3]
        now += (act == "send") - (act == "receive")
        most = max(most, now)
    return most
