// A buffer of two places. Who puts a thing in is told when it has its place, and who asks for one is answered when there is one.
// Each Put comes with a Get, so what is still to come is *(Put.Get), and one more Get for each place that is taken.
interface Buffer { Put(Int, Producer!Stored), Get(Consumer!Item) }
interface Producer { Stored() }
interface Consumer { Item(Int) }

def empty(self: Buffer?): Unit {
    guard self : *(Put.Get) {
        free -> ()
        receive Put(x, producer) from self -> producer ! Stored(); one(self, x)
    }
}

def one(self: Buffer?, x: Int): Unit {
    guard self : Get.*(Put.Get) {
        receive Put(y, producer) from self -> producer ! Stored(); two(self, x, y)
        receive Get(consumer) from self -> consumer ! Item(x); empty(self)
    }
}

// No place is left: a Put waits in the mailbox, and its sender for Stored.
def two(self: Buffer?, x: Int, y: Int): Unit {
    guard self : Get.Get.*(Put.Get) {
        receive Get(consumer) from self -> consumer ! Item(x); one(self, y)
    }
}

def put(buffer: Buffer!Put, x: Int): Unit {
    let me = new[Producer] in
    buffer ! Put(x, me);
    guard me : Stored { receive Stored() from me -> free(me) }
}

def get(buffer: Buffer!Get): Unit {
    let me = new[Consumer] in
    buffer ! Get(me);
    guard me : Item { receive Item(x) from me -> free(me); print(x) }
}

// Two functions that put and get as often as each likes would be *Put and *Get: a Put without its Get would be lost in the buffer.
def pass(buffer: Buffer!*(Put.Get), n: Int): Unit {
    if n == 0 { () }
    else {
        spawn { put(buffer, n) };
        get(buffer);
        pass(buffer, n - 1)
    }
}

def main(): Unit {
    let buffer = new[Buffer] in
    spawn { empty(buffer) };
    pass(buffer, 3)
}
