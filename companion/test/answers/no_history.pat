def main(): Unit { print(1) }
%%history
0 0 1 prnt
