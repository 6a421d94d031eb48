// Three smokers have one ingredient each; the arbiter lays out the other two, and waits until that smoker has begun.
// Shows: one mailbox to which three threads send; the end of the work is sent to each of them once.
interface Smoker { Start(), Exit() }
interface Arbiter { Started() }

def smoker(self: Smoker?, arbiter: Arbiter!, has: String): Unit {
    guard self : *Start.Exit {
        receive Start() from self -> print(has); arbiter ! Started(); smoker(self, arbiter, has)
        receive Exit() from self -> leaving(self)
    }
}

def leaving(self: Smoker?): Unit {
    guard self : *Start {
        free -> ()
        receive Start() from self -> leaving(self)
    }
}

// Whose turn it is goes round: the first of the three is next.
def arbiter(self: Arbiter?, a: Smoker!, b: Smoker!, c: Smoker!, rounds: Int): Unit {
    a ! Start();
    guard self : *Started {
        free -> leave(a, b, c)                          // it never comes to this, since the smokers keep the arbiter
        receive Started() from self ->
            if rounds == 0 { leave(a, b, c); ending(self) } else { arbiter(self, b, c, a, rounds - 1) }
    }
}

def leave(a: Smoker!, b: Smoker!, c: Smoker!): Unit { a ! Exit(); b ! Exit(); c ! Exit() }

def ending(self: Arbiter?): Unit {
    guard self : *Started {
        free -> print("nobody smokes")
        receive Started() from self -> ending(self)
    }
}

def main(): Unit {
    let tobacco = new[Smoker] in
    let paper = new[Smoker] in
    let matches = new[Smoker] in
    let table = new[Arbiter] in
    spawn { smoker(tobacco, table, "tobacco") };
    spawn { smoker(paper, table, "paper") };
    spawn { smoker(matches, table, "matches") };
    arbiter(table, tobacco, paper, matches, 4)
}
