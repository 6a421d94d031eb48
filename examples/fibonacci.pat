// Each number is asked of an actor of its own, which asks two others.
// Shows: a mailbox for each answer; two messages of one tag are a product, and a thread may wait in the midst of a term.
interface Sum { Value(Int) }

def fibonacci(n: Int, to: Sum!Value): Unit {
    if n < 2 { to ! Value(n) }
    else {
        let me = new[Sum] in
        spawn { fibonacci(n - 1, me) };
        spawn { fibonacci(n - 2, me) };
        guard me : Value.Value {
            receive Value(x) from me -> guard me : Value {
                receive Value(y) from me -> free(me); to ! Value(x + y)
            }
        }
    }
}

def main(): Unit {
    let me = new[Sum] in
    spawn { fibonacci(10, me) };
    guard me : Value { receive Value(x) from me -> free(me); print(x) }
}
