def main(): Unit { print(1) }
%%derivation
node 0 Unit
