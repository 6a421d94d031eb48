def answer(): Int { 42 }

def main(): Unit { print(1); answer() }
