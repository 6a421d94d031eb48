// A cache in front of a slow server.
interface Cache { Get(Int, Client!(Value + Miss)), Store(Int, Int) }
interface Server { Fetch(Int, Client!Value) }
interface Client { Value(Int), Miss() }

def server(self: Server?): Unit {
    guard self : *Fetch {
        free -> ()
        receive Fetch(key, to) from self -> to ! Value(key * key); server(self)
    }
}

def cache(self: Cache?, key: Int, value: Int): Unit {
    guard self : *(Get + Store) {
        free -> ()
        receive Get(k, client) from self ->
            if k == key { client ! Value(value) } else { client ! Miss() };
            cache(self, key, value)
        receive Store(k, v) from self -> cache(self, k, v)
    }
}

def get(cache: Cache!, server: Server!, k: Int): Int {
    let me = new[Client] in
    cache ! Get(k, me);
    guard me : Value + Miss {
        receive Value(v) from me -> free(me); v
        receive Miss() from me ->
            server ! Fetch(k, me);
            guard me : Value { receive Value(v) from me -> free(me); cache ! Store(k, v); v }
    }
}

def main(): Unit {
    let s = new[Server] in
    let c = new[Cache] in
    spawn { server(s) };
    spawn { cache(c, 0, 0) };
    let r = get(c, s, 5) in
    print(r);
    let r = get(c, s, 5) in
    print(r)
}
