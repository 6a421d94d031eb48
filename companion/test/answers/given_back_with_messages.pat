interface I { m() }

def filled(): I? { let a = new[I] in a ! m(); a }

def main(): Unit { let a = filled() in free(a) }
