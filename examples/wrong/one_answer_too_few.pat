// Two actors are asked, and one answer is waited for: the other is left in the mailbox. Mended by the guard Value.Value, and
// another guard in its clause.
interface Sum { Value(Int) }

def half(n: Int, to: Sum!): Unit { to ! Value(n) }

def main(): Unit {
    let me = new[Sum] in
    spawn { half(20, me) };
    spawn { half(22, me) };
    guard me : Value { receive Value(x) from me -> free(me); print(x) }
}
