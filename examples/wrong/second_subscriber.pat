// A topic that keeps one reader and takes a second one: in the clause for the second it uses a mailbox beside the one that came.
// Mended by readers that are parameters from the start, as in big.pat, or that ask for each note, as in future.pat.
interface Topic { Subscribe(Reader!Note), Publish(Int) }
interface Reader { Note(Int) }

def one_reader(self: Topic?, first: Reader!Note): Unit {
    guard self : *Subscribe.Publish {
        receive Publish(x) from self -> first ! Note(x); none_left(self)
        receive Subscribe(second) from self -> two_readers(self, first, second)
    }
}

def two_readers(self: Topic?, first: Reader!Note, second: Reader!Note): Unit {
    guard self : *Subscribe.Publish {
        receive Publish(x) from self -> first ! Note(x); second ! Note(x); none_left(self)
    }
}

def none_left(self: Topic?): Unit {
    guard self : *Subscribe {
        free -> ()
        receive Subscribe(late) from self -> late ! Note(0); none_left(self)
    }
}

def main(): Unit { () }
