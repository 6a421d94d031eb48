// A producer sends many increments, and then asks for the sum.
// Shows: order is no part of a type. The counter is asked after all increments, but its type must allow for some to follow.
interface Counter { Add(Int), Total(Producer!Sum) }
interface Producer { Sum(Int) }

def counter(self: Counter?, sum: Int): Unit {
    guard self : *Add.Total {
        receive Add(n) from self -> counter(self, sum + n)
        receive Total(producer) from self -> producer ! Sum(sum); late(self)
    }
}

def late(self: Counter?): Unit {
    guard self : *Add {
        free -> ()
        receive Add(n) from self -> print("too late"); late(self)
    }
}

def produce(counter: Counter!*Add, n: Int): Unit {
    if n == 0 { () } else { counter ! Add(n); produce(counter, n - 1) }
}

def main(): Unit {
    let c = new[Counter] in
    spawn { counter(c, 0) };
    produce(c, 50);
    let me = new[Producer] in
    c ! Total(me);
    guard me : Sum { receive Sum(x) from me -> free(me); print(x) }
}
