// A lock. Whoever asks for it is answered with the right to release it, and that right can be used just once.
// Shows: a state of an actor is a function whose guard says what may be there; a message carries a right to send.
interface Lock { Acquire(User!Granted), Release() }
interface User { Granted(Lock!Release) }

def unlocked(self: Lock?): Unit {
    guard self : *Acquire {                             // nobody has the lock, so nobody can release it
        free -> ()
        receive Acquire(user) from self -> user ! Granted(self); locked(self)
    }
}

def locked(self: Lock?): Unit {
    guard self : Release.*Acquire {                     // just one Release will come; further users wait
        receive Release() from self -> unlocked(self)
    }
}

def use(lock: Lock!, name: String): Unit {
    let me = new[User] in
    lock ! Acquire(me);
    guard me : Granted {
        receive Granted(held) from me -> print(name); held ! Release(); free(me)
    }
}

def main(): Unit {
    let lock = new[Lock] in
    spawn { unlocked(lock) };
    spawn { use(lock, "first") };
    spawn { use(lock, "second") };
    use(lock, "third")
}
