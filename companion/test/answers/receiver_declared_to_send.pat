interface C { Inc() }
def c(self: C!, n: Int): Unit { guard self : *Inc { free -> print(n) receive Inc() from self -> c(self, n + 1) } }
def main(): Unit { let a = new[C] in spawn { c(a, 0) }; a ! Inc() }
