// A producer that never ends: no finite word is what it sends. That is no fault, but inference looks for the least pattern and
// finds it empty. Mended by writing what may be sent: `counter: Counter!*Add`.
interface Counter { Add(Int) }

def counter(self: Counter?, sum: Int): Unit {
    guard self : *Add {
        free -> print(sum)
        receive Add(n) from self -> counter(self, sum + n)
    }
}

def produce(counter: Counter!): Unit { counter ! Add(1); produce(counter) }

def main(): Unit {
    let c = new[Counter] in
    spawn { counter(c, 0) };
    produce(c)
}
