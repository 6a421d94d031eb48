interface I { m() }

def one(x: I!): Unit { x ! m() }

def two(y: I!): Unit { one(y) }

def three(z: I!): Unit { two(z); two(z) }

def main(): Unit {
    let a = new[I] in
    three(a);
    guard a : m { receive m() from a -> free(a) }
}
