interface Client { Answer(Int) }
interface Server { Ask(Server!Answer) }

def main(): Unit { () }
