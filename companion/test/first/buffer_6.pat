// A bounded buffer: a producer puts numbers, a consumer takes them; at most one is in it.
interface Puts { Put(Int) }
interface Takes { Take() }
interface Producer { Done() }
interface Consumer { Item(Int) }

def empty(puts: Puts?, takes: Takes?, producer: Producer!, consumer: Consumer!): Unit {
    guard puts : *Put {
        free -> drain(takes)
        receive Put(x) from puts -> producer ! Done(); one(puts, takes, producer, consumer, x)
    }
}

def one(puts: Puts?, takes: Takes?, producer: Producer!, consumer: Consumer!, x: Int): Unit {
    guard takes : *Take {
        free -> drop(puts)
        receive Take() from takes -> consumer ! Item(x); empty(puts, takes, producer, consumer)
    }
}

def drain(takes: Takes?): Unit {
    guard takes : *Take { free -> () receive Take() from takes -> drain(takes) }
}

def drop(puts: Puts?): Unit {
    guard puts : *Put { free -> () receive Put(x) from puts -> drop(puts) }
}

def producer(me: Producer?, puts: Puts!, n: Int): Unit {
    if n < 1 { () } else {
        puts ! Put(n);
        guard me : Done { receive Done() from me -> producer(me, puts, n - 1) }
    }
}

def consumer(me: Consumer?, takes: Takes!, n: Int): Unit {
    if n < 1 { () } else {
        takes ! Take();
        guard me : Item { receive Item(x) from me -> print(x); consumer(me, takes, n - 1) }
    }
}

def main(): Unit {
    let puts = new[Puts] in
    let takes = new[Takes] in
    let p = new[Producer] in
    let c = new[Consumer] in
    spawn { empty(puts, takes, p, c) };
    spawn { producer(p, puts, 3) };
    consumer(c, takes, 3)
}
