interface I { m() }

def main(): Unit {
    let a = new[I] in
    let b = if 1 < 2 {
        a ! m();
        1
    } else {
        "two"
    } in
    free(a)
}
