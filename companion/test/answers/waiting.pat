interface I { m() }
interface J { n() }

def one(a: I?, b: J!): Unit {
    guard a : m { receive m() from a -> free(a); b ! n() }
}

def main(): Unit {
    let a = new[I] in
    let b = new[J] in
    spawn { one(a, b) };
    guard b : n { receive n() from b -> free(b); a ! m() }
}
