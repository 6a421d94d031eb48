// Three actors, each of which pings the other two by turns and answers their pings, until all three are done.
// Shows: a clause that gets a mailbox may use no other but its own. These actors go on with both neighbours after each ping, so
// a ping brings no mailbox to answer to, and says instead from which side it comes.
interface Actor { Ping(Bool), Pong(), Exit() }
interface Sink { Done() }

def actor(self: Actor?, left: Actor!, right: Actor!, sink: Sink!, more: Int, is_left_next: Bool): Unit {
    guard self : *Ping.*Pong.Exit {
        receive Ping(is_from_left) from self ->
            answer(is_from_left, left, right);
            actor(self, left, right, sink, more, is_left_next)
        receive Pong() from self ->
            if more == 0 { sink ! Done(); resting(self, left, right) }
            else {
                ping(is_left_next, left, right);
                actor(self, left, right, sink, more - 1, is_left_next == false)
            }
        receive Exit() from self -> sink ! Done(); leaving(self)
    }
}

def ping(is_left: Bool, left: Actor!, right: Actor!): Unit {
    if is_left { left ! Ping(false) } else { right ! Ping(true) }
}

def answer(is_left: Bool, left: Actor!, right: Actor!): Unit {
    if is_left { left ! Pong() } else { right ! Pong() }
}

def resting(self: Actor?, left: Actor!, right: Actor!): Unit {
    guard self : *Ping.*Pong.Exit {
        receive Ping(is_from_left) from self -> answer(is_from_left, left, right); resting(self, left, right)
        receive Pong() from self -> resting(self, left, right)
        receive Exit() from self -> leaving(self)
    }
}

def leaving(self: Actor?): Unit {
    guard self : *Ping.*Pong {
        free -> ()
        receive Ping(is_from_left) from self -> leaving(self)
        receive Pong() from self -> leaving(self)
    }
}

def begin(self: Actor?, left: Actor!, right: Actor!, sink: Sink!): Unit {
    ping(true, left, right);
    actor(self, left, right, sink, 6, false)
}

def main(): Unit {
    let a = new[Actor] in
    let b = new[Actor] in
    let c = new[Actor] in
    let sink = new[Sink] in
    spawn { begin(a, c, b, sink) };
    spawn { begin(b, a, c, sink) };
    spawn { begin(c, b, a, sink) };
    guard sink : Done.Done.Done {
        receive Done() from sink -> guard sink : Done.Done {
            receive Done() from sink -> guard sink : Done {
                receive Done() from sink -> free(sink); print("all are done"); a ! Exit(); b ! Exit(); c ! Exit()
            }
        }
    }
}
