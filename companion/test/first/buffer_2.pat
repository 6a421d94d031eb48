// A bounded buffer: producers put numbers, consumers take them; at most two are in it.
interface Buffer { Put(Int, Producer!Done), Take(Consumer!Item) }
interface Producer { Done() }
interface Consumer { Item(Int) }

def empty(self: Buffer?): Unit {
    guard self : *(Put.Take) {
        free -> ()
        receive Put(x, producer) from self -> producer ! Done(); one(self, x)
    }
}

def one(self: Buffer?, x: Int): Unit {
    guard self : *(Put.Take) {
        receive Put(y, producer) from self -> producer ! Done(); full(self, x, y)
        receive Take(consumer) from self -> consumer ! Item(x); empty(self)
    }
}

def full(self: Buffer?, x: Int, y: Int): Unit {
    guard self : *(Put.Take) {
        receive Take(consumer) from self -> consumer ! Item(x); one(self, y)
    }
}

def producer(buffer: Buffer!, n: Int): Unit {
    if n < 1 { () } else {
        let me = new[Producer] in
        buffer ! Put(n, me);
        guard me : Done { receive Done() from me -> free(me); producer(buffer, n - 1) }
    }
}

def consumer(buffer: Buffer!, n: Int): Unit {
    if n < 1 { () } else {
        let me = new[Consumer] in
        buffer ! Take(me);
        guard me : Item { receive Item(x) from me -> free(me); print(x); consumer(buffer, n - 1) }
    }
}

def main(): Unit {
    let buffer = new[Buffer] in
    spawn { empty(buffer) };
    spawn { producer(buffer, 3) };
    consumer(buffer, 3)
}
