interface Fork { Take(Phil!Taken), Release() }
interface Phil { Taken() }

def fork(self: Fork?): Unit {
    guard self : *(Take.Release) {
        free -> ()
        receive Take(phil) from self -> phil ! Taken(); taken(self)
    }
}

def taken(self: Fork?): Unit {
    guard self : Release.*Take { receive Release() from self -> fork(self) }
}

def main(): Unit {
    let f = new[Fork] in
    let me = new[Phil] in
    spawn { fork(f) };
    f ! Take(me);
    guard me : Taken { receive Taken() from me -> free(me); f ! Release() }
}
