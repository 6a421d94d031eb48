interface I { m() }

def main(): Unit {
    let a = new[I] in
    guard a : m {
        receive m() from a -> free(a)
    }
}
