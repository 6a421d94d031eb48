// A server that gives each client a number that no other client gets. It has to be told once with which one to begin.
// Shows: Start is taken before any Next, though clients may ask before it has come.
interface Server { Start(Int), Next(Client!Id) }
interface Client { Id(Int) }

def waiting(self: Server?): Unit {
    guard self : Start.*Next {
        receive Start(first) from self -> serving(self, first)
    }
}

def serving(self: Server?, next: Int): Unit {
    guard self : *Next {
        free -> ()
        receive Next(client) from self -> client ! Id(next); serving(self, next + 1)
    }
}

def client(server: Server!): Unit {
    let me = new[Client] in
    server ! Next(me);
    guard me : Id { receive Id(n) from me -> free(me); print(n) }
}

def main(): Unit {
    let server = new[Server] in
    spawn { waiting(server) };
    spawn { client(server) };
    spawn { client(server) };
    server ! Start(100);
    client(server)
}
