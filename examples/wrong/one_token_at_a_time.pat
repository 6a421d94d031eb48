// A ring in which each actor waits for a token or for Stop, and goes on when the token came. But of Token + Stop nothing is left
// once the token is received, and the next guard expects one of the two again: a pattern counts all that comes in a mailbox's
// life. Mended as in thread_ring.pat, by the guard *Token.Stop.
interface Node { Token(Int), Stop() }

def node(self: Node?, next: Node!): Unit {
    guard self : Token + Stop {
        receive Token(n) from self -> next ! Token(n - 1); node(self, next)
        receive Stop() from self -> free(self); next ! Stop()
    }
}

def main(): Unit {
    let one = new[Node] in
    let other = new[Node] in
    spawn { node(one, other) };
    spawn { node(other, one) };
    one ! Token(10)
}
