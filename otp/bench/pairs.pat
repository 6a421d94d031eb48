// 32 pairs of threads that send one another 128,000 messages in all
interface Ponger { Ping(Pinger!Pong) }
interface Pinger { Pong() }
def pinger(self: Pinger?, other: Ponger!, left: Int): Unit {
    if left == 0 { free(self); print("enough") }
    else { other ! Ping(self); guard self : Pong { receive Pong() from self -> pinger(self, other, left - 1) } }
}
def ponger(self: Ponger?): Unit {
    guard self : *Ping { free -> () receive Ping(pinger) from self -> pinger ! Pong(); ponger(self) }
}
def pair(rounds: Int): Unit {
    let other = new[Ponger] in spawn { ponger(other) }; let me = new[Pinger] in pinger(me, other, rounds)
}
def pairs(n: Int, rounds: Int): Unit { if n == 0 { () } else { spawn { pair(rounds) }; pairs(n - 1, rounds) } }
def main(): Unit { pairs(32, 2000) }
