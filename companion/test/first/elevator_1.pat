// An elevator that goes where it is called.
interface Elevator { Call(Int, Rider!Here), Stop() }
interface Rider { Here(Int) }

def elevator(self: Elevator?, floor: Int): Unit {
    guard self : *Call {
        receive Call(to, rider) from self -> move(floor, to); rider ! Here(to); elevator(self, to)
        receive Stop() from self -> ()
    }
}

def move(floor: Int, to: Int): Unit {
    if floor == to { () }
    else { if floor < to { print(floor + 1); move(floor + 1, to) } else { print(floor - 1); move(floor - 1, to) } }
}

def rider(elevator: Elevator!, to: Int): Unit {
    let me = new[Rider] in
    elevator ! Call(to, me);
    guard me : Here { receive Here(floor) from me -> print(floor) }
}

def main(): Unit {
    let e = new[Elevator] in
    spawn { elevator(e, 0) };
    rider(e, 3);
    rider(e, 1);
    e ! Stop()
}
