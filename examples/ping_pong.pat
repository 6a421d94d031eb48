// Two actors that send one another a message in turn, so many times.
// Shows: whoever asks hands over the right to answer once; whoever answers needs to know nobody.
interface Ponger { Ping(Pinger!Pong) }
interface Pinger { Pong() }

def pinger(self: Pinger?, other: Ponger!, left: Int): Unit {
    if left == 0 { free(self); print("enough") }
    else {
        other ! Ping(self);
        guard self : Pong { receive Pong() from self -> pinger(self, other, left - 1) }
    }
}

def ponger(self: Ponger?): Unit {
    guard self : *Ping {
        free -> ()                                      // the pinger has let go of it
        receive Ping(pinger) from self -> pinger ! Pong(); ponger(self)
    }
}

def main(): Unit {
    let other = new[Ponger] in
    spawn { ponger(other) };
    let me = new[Pinger] in
    pinger(me, other, 20)
}
