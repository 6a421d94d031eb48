// Each function sends what the one before it sends, twice: 4,096 messages in all, which is more than is counted. Mended by a
// recursive function and a star, as in fork_join.pat.
interface Worker { Job(Int) }

def one(w: Worker!): Unit { w ! Job(1) }
def twice1(w: Worker!): Unit { one(w); one(w) }
def twice2(w: Worker!): Unit { twice1(w); twice1(w) }
def twice3(w: Worker!): Unit { twice2(w); twice2(w) }
def twice4(w: Worker!): Unit { twice3(w); twice3(w) }
def twice5(w: Worker!): Unit { twice4(w); twice4(w) }
def twice6(w: Worker!): Unit { twice5(w); twice5(w) }
def twice7(w: Worker!): Unit { twice6(w); twice6(w) }
def twice8(w: Worker!): Unit { twice7(w); twice7(w) }
def twice9(w: Worker!): Unit { twice8(w); twice8(w) }
def twice10(w: Worker!): Unit { twice9(w); twice9(w) }
def twice11(w: Worker!): Unit { twice10(w); twice10(w) }
def twice12(w: Worker!): Unit { twice11(w); twice11(w) }

def worker(self: Worker?): Unit {
    guard self : Job { receive Job(x) from self -> free(self) }
}

def main(): Unit {
    let w = new[Worker] in
    spawn { worker(w) };
    twice12(w)
}
