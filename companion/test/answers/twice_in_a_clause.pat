interface I { pair(Int, Int) }

def f(a: I?): Unit { guard a : pair { receive pair(x, x) from a -> free(a) } }

def main(): Unit { let a = new[I] in a ! pair(1, 2); f(a) }
