// Two philosophers and two forks.
interface Fork { Take(Phil!Taken), Release() }
interface Phil { Taken() }

def fork(self: Fork?): Unit {
    guard self : *(Take.Release) {
        free -> ()
        receive Take(phil) from self -> phil ! Taken(); taken(self)
    }
}

def taken(self: Fork?): Unit {
    guard self : Release.*Take {
        receive Release() from self -> fork(self)
    }
}

def phil(name: String, left: Fork!, right: Fork!): Unit {
    let me = new[Phil] in
    left ! Take(me);
    guard me : Taken {
        receive Taken() from me ->
            right ! Take(me);
            guard me : Taken {
                receive Taken() from me -> print(name); left ! Release(); right ! Release(); free(me)
            }
    }
}

def main(): Unit {
    let a = new[Fork] in
    let b = new[Fork] in
    spawn { fork(a) };
    spawn { fork(b) };
    spawn { phil("Plato", a, b) };
    phil("Kant", b, a)
}
