// A cache in front of a slow server.
interface Cache { Get(Int, Client!Value) }
interface Server { Fetch(Int, Client!Value) }
interface Client { Value(Int) }

def server(self: Server?): Unit {
    guard self : *Fetch {
        free -> ()
        receive Fetch(key, to) from self -> to ! Value(key * key); server(self)
    }
}

def cache(self: Cache?, server: Server!, key: Int, value: Int): Unit {
    guard self : *Get {
        free -> ()
        receive Get(k, client) from self ->
            if k == key { client ! Value(value); cache(self, server, key, value) }
            else {
                let me = new[Client] in
                server ! Fetch(k, me);
                guard me : Value { receive Value(v) from me -> free(me); client ! Value(v); cache(self, server, k, v) }
            }
    }
}

def main(): Unit {
    let s = new[Server] in
    let c = new[Cache] in
    spawn { server(s) };
    spawn { cache(c, s, 0, 0) };
    let me = new[Client] in
    c ! Get(5, me);
    guard me : Value { receive Value(v) from me -> print(v); free(me) }
}
