// A master that deals tasks out to two workers, and one that gathers the results, in whatever order they come.
// Shows: the number of messages need not be known; a mailbox that nobody can send to any more says that all have come.
interface Worker { Task(Int, Master!Result) }
interface Master { Result(Int) }

def worker(self: Worker?): Unit {
    guard self : *Task {
        free -> ()
        receive Task(n, master) from self -> master ! Result(n * n); worker(self)
    }
}

def deal(n: Int, one: Worker!, other: Worker!, results: Master!): Unit {
    if n == 0 { () }
    else { one ! Task(n, results); deal(n - 1, other, one, results) }
}

def gather(results: Master?, sum: Int): Unit {
    guard results : *Result {
        free -> print(sum)
        receive Result(x) from results -> gather(results, sum + x)
    }
}

def main(): Unit {
    let one = new[Worker] in
    let other = new[Worker] in
    let results = new[Master] in
    spawn { worker(one) };
    spawn { worker(other) };
    deal(10, one, other, results);
    gather(results, 0)
}
