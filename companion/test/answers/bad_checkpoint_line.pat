interface I { m() }
def main(): Unit { let a = new[I] in a ! m(); guard a : m { receive m() from b -> free(b) } }
%%derivation
var 1 I 1
node 0 Unit {}
node 1 I?$1 {}
node 2 Unit {v0: I?$1 ret}
node 3 Unit {v0: I!m sec}
node 4 Unit {v0: I?m ret}
node 5 Unit {v1: I?1 ret}
node 6 Unit {}
%%checkpoint
next 1 1 1
mailbox 0 I
message 0  0 m()
thread 0 value unit
frame - 4 {v0=#0}
