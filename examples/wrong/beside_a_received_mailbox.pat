// A clause that gets a mailbox in its message uses another mailbox too: what is received may be another name of just that one.
// Mended by a message without a mailbox, as in philosophers.pat, or by a thread of its own for what is received.
interface Fork { Take(Philosopher!Taken), Release() }
interface Philosopher { Taken(Fork!Release) }

def eat(first: Fork!, second: Fork!): Unit {
    let me = new[Philosopher] in
    first ! Take(me);
    guard me : Taken { receive Taken(held) from me -> free(me); second ! Release(); held ! Release() }
}

def main(): Unit { () }
