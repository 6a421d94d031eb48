// An actor that answers and then lets go of its own mailbox: further pings would be left there. Mended by `ponger(self)` at the
// end of the clause.
interface Ponger { Ping(Pinger!Pong) }
interface Pinger { Pong() }

def ponger(self: Ponger?): Unit {
    guard self : *Ping {
        free -> ()
        receive Ping(pinger) from self -> pinger ! Pong()
    }
}

def main(): Unit { () }
