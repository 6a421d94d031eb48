interface I { m() }

def server(self: I!): Unit { self ! m() }

def main(): Unit {
    let a = new[I] in
    spawn { server(a) };
    a ! m()
}
