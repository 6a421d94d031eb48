interface Srv { Ask(Cl!Ans), Set(Int) }
interface Cl { Ans(Int) }
def srv(self: Srv?): Unit { guard self : *Ask.Set { receive Ask(c) from self -> waiting(self, c) receive Set(n) from self -> done(self, n) } }
def waiting(self: Srv?, c: Cl!): Unit { guard self : *Ask.Set { receive Set(n) from self -> c ! Ans(n); done(self, n) receive Ask(d) from self -> waiting(self, c) } }
def done(self: Srv?, n: Int): Unit { guard self : *Ask { free -> () receive Ask(c) from self -> c ! Ans(n); done(self, n) } }
def main(): Unit { let s = new[Srv] in let me = new[Cl] in spawn { srv(s) }; s ! Ask(me); s ! Set(3); guard me : Ans { receive Ans(x) from me -> free(me); print(x) } }
