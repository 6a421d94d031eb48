// Two-phase commit: a coordinator asks two participants, and tells both what came of it.
interface Part { Prepare(Coord!(Yes + No)), Commit(), Abort() }
interface Coord { Yes(), No() }

def part(self: Part?, name: String, ready: Bool): Unit {
    guard self : Prepare.(Commit + Abort) {
        receive Prepare(coord) from self ->
            if ready { coord ! Yes() } else { coord ! No() };
            guard self : Commit + Abort {
                receive Commit() from self -> print(name); free(self)
                receive Abort() from self -> print("abort"); free(self)
            }
    }
}

def coord(a: Part!, b: Part!): Unit {
    let me = new[Coord] in
    a ! Prepare(me);
    b ! Prepare(me);
    guard me : (Yes + No).(Yes + No) {
        receive Yes() from me ->
            guard me : Yes + No {
                receive Yes() from me -> free(me); a ! Commit(); b ! Commit()
                receive No() from me -> free(me); a ! Abort(); b ! Abort()
            }
        receive No() from me ->
            guard me : Yes + No {
                receive Yes() from me -> free(me); a ! Abort(); b ! Abort()
                receive No() from me -> free(me); a ! Abort(); b ! Abort()
            }
    }
}

def main(): Unit {
    let a = new[Part] in
    let b = new[Part] in
    spawn { part(a, "a", true) };
    spawn { part(b, "b", true) };
    coord(a, b)
}
