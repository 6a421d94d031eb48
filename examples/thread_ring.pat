// Actors in a ring hand on a token that counts down. Whoever gets it at 0 sends Stop round the ring.
// Shows: nobody in a ring is ever let go of, so an end has to be sent. A pattern counts all that comes in a mailbox's life, and
// not what is there at once. That no token comes behind Stop it can't say, so a stopped actor takes what may still come.
interface Node { Token(Int), Stop() }

def node(self: Node?, next: Node!): Unit {
    guard self : *Token.Stop {
        receive Token(n) from self ->
            if n == 0 { print("stop"); next ! Stop(); stopping(self) }
            else { next ! Token(n - 1); node(self, next) }
        receive Stop() from self -> next ! Stop(); stopped(self)
    }
}

def stopping(self: Node?): Unit {                       // the one that sent the first Stop: it ends where it began
    guard self : *Token.Stop {
        receive Token(n) from self -> stopping(self)
        receive Stop() from self -> stopped(self)
    }
}

def stopped(self: Node?): Unit {
    guard self : *Token {
        free -> ()
        receive Token(n) from self -> stopped(self)
    }
}

def ring(more: Int, self: Node?, first: Node!): Unit {
    if more == 0 { node(self, first) }
    else {
        let next = new[Node] in
        spawn { node(self, next) };
        ring(more - 1, next, first)
    }
}

def main(): Unit {
    let first = new[Node] in
    let second = new[Node] in
    spawn { node(first, second) };
    spawn { ring(3, second, first) };
    first ! Token(23)
}
