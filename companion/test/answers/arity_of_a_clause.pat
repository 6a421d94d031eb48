interface I { pair(Int, Int) }

def main(): Unit { let a = new[I] in a ! pair(1, 2); guard a : pair { receive pair(x) from a -> free(a) } }
