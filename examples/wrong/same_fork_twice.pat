// A philosopher is given one fork as both: what is done to the one would be done to the other. Mended by two forks.
interface Fork { Take(), Release() }

def lying(self: Fork?): Unit {
    guard self : *Take.*Release {
        free -> ()
        receive Take() from self -> lying(self)
        receive Release() from self -> lying(self)
    }
}

def eat(first: Fork!, second: Fork!): Unit { first ! Take(); second ! Take(); first ! Release(); second ! Release() }

def main(): Unit {
    let a = new[Fork] in
    spawn { lying(a) };
    eat(a, a)
}
