// Three philosophers round a table, and a fork between each two of them. Whoever has both forks eats.
// Shows: a star over a product pairs each Take with a Release. Types don't see threads that wait for one another: that not all
// three wait for ever is due to the third philosopher, who takes the forks in the other order.
interface Fork { Take(Philosopher!Taken), Release() }
interface Philosopher { Taken() }

def lying(self: Fork?): Unit {
    guard self : *(Take.Release) {
        free -> ()
        receive Take(philosopher) from self -> philosopher ! Taken(); taken(self)
    }
}

def taken(self: Fork?): Unit {
    guard self : Release.*(Take.Release) {
        receive Release() from self -> lying(self)
    }
}

def philosopher(name: String, first: Fork!, second: Fork!, meals: Int): Unit {
    if meals == 0 { () }
    else {
        let me = new[Philosopher] in
        first ! Take(me);
        guard me : Taken {
            receive Taken() from me ->
                second ! Take(me);
                guard me : Taken {
                    receive Taken() from me ->
                        free(me);
                        print(name);
                        first ! Release();
                        second ! Release();
                        philosopher(name, first, second, meals - 1)
                }
        }
    }
}

def main(): Unit {
    let a = new[Fork] in
    let b = new[Fork] in
    let c = new[Fork] in
    spawn { lying(a) };
    spawn { lying(b) };
    spawn { lying(c) };
    spawn { philosopher("Ada", a, b, 2) };
    spawn { philosopher("Ben", b, c, 2) };
    philosopher("Cleo", a, c, 2)
}
