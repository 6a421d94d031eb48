// A user of a lock that doesn't release it. The right to send Release is received, and its pattern has no empty word: it has to
// be used. Mended by `held ! Release()`.
interface Lock { Acquire(User!Granted), Release() }
interface User { Granted(Lock!Release) }

def use(lock: Lock!): Unit {
    let me = new[User] in
    lock ! Acquire(me);
    guard me : Granted { receive Granted(held) from me -> free(me); print("mine") }
}

def main(): Unit { () }
