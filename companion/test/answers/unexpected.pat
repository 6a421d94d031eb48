interface Box { Put(Int) }

def main(): Unit {
    let b = new[Box] in
    if 1 < 2 { b ! Put(1) };
    free(b)
}
