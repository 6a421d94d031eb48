// A philosopher that keeps its fork. Each guard's pattern has a star over a product, and with such patterns pat says yes where it
// finds how, and otherwise only that it doesn't know. Mended by `fork ! Release()`.
interface Fork { Take(), Release() }

def lying(self: Fork?): Unit {
    guard self : *(Take.Release) {
        free -> ()
        receive Take() from self -> taken(self)
    }
}

def taken(self: Fork?): Unit {
    guard self : Release.*(Take.Release) { receive Release() from self -> lying(self) }
}

def main(): Unit {
    let fork = new[Fork] in
    spawn { lying(fork) };
    fork ! Take();
    print("dinner")
}
