// A client has the right to send to the server, and passes it on as the right to receive. Mended by a parameter `server: Server?`
// for whoever serves.
interface Server { Next(Client!Id) }
interface Client { Id(Int) }

def serving(self: Server?, next: Int): Unit {
    guard self : *Next {
        free -> ()
        receive Next(client) from self -> client ! Id(next); serving(self, next + 1)
    }
}

def client(server: Server!): Unit { serving(server, 100) }

def main(): Unit { () }
