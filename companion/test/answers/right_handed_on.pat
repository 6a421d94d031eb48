interface Promise { Keep(Int), Await(Reader!Value) }
interface Reader { Value(Int) }

def pending(self: Promise?, waiting: Reader!): Unit {
    guard self : Keep.*Await {
        receive Keep(x) from self -> waiting ! Value(x); kept(self, x)
        receive Await(reader) from self -> pending(self, reader)
    }
}

def kept(self: Promise?, x: Int): Unit {
    guard self : *Await {
        free -> ()
        receive Await(reader) from self -> reader ! Value(x); kept(self, x)
    }
}

def main(): Unit {
    let promise = new[Promise] in
    let me = new[Reader] in
    spawn { pending(promise, me) };
    spawn { promise ! Keep(3) };
    guard me : Value { receive Value(x) from me -> free(me); print(x) }
}
