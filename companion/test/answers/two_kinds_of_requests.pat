interface Buffer { Put(Int, Producer!Ok), Get(Consumer!Item) }
interface Producer { Ok() }
interface Consumer { Item(Int) }
def buffer(self: Buffer?, count: Int, item: Int): Unit {
    if count == 0 {
        guard self : *Put.*Get {
            free -> ()
            receive Put(x, p) from self -> p ! Ok(); buffer(self, 1, x)
        }
    } else {
        guard self : *Put.*Get {
            free -> ()
            receive Get(c) from self -> c ! Item(item); buffer(self, 0, 0)
        }
    }
}
def producer(b: Buffer!, n: Int): Unit {
    if n == 0 { () } else {
        let me = new[Producer] in
        b ! Put(n, me);
        guard me : Ok { receive Ok() from me -> free(me); producer(b, n - 1) }
    }
}
def consumer(b: Buffer!, n: Int): Unit {
    if n == 0 { () } else {
        let me = new[Consumer] in
        b ! Get(me);
        guard me : Item { receive Item(x) from me -> free(me); print(x); consumer(b, n - 1) }
    }
}
def main(): Unit {
    let b = new[Buffer] in
    spawn { buffer(b, 0, 0) };
    spawn { producer(b, 3) };
    consumer(b, 3)
}
