def main(): Unit { let x = 2 in print(x) }
%%history
0 0 2 print
0 1 0 end
