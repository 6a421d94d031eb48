interface A { take(B?keep) }
interface B { keep(A?take) }

def main(): Unit {
    let a = new[A] in
    let b = new[B] in
    spawn { a ! take(b) };
    b ! keep(a)
}
