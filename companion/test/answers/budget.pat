def turn(): Unit { turn() }

def main(): Unit { turn() }
