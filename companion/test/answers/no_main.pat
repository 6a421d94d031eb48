def start(): Unit { () }
