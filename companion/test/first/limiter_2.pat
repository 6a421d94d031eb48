// A limiter: at most two requests at once get through.
interface Limiter { Enter(Client!Go), Leave() }
interface Client { Go() }

def limiter(self: Limiter?, slots: Int): Unit {
    guard self : *Enter.*Leave {
        free -> ()
        receive Enter(client) from self ->
            if 0 < slots { client ! Go(); limiter(self, slots - 1) } else { limiter(self, slots) }
        receive Leave() from self -> limiter(self, slots + 1)
    }
}

def client(limiter: Limiter!, n: Int): Unit {
    let me = new[Client] in
    limiter ! Enter(me);
    guard me : Go { receive Go() from me -> print(n); limiter ! Leave() }
}

def main(): Unit {
    let l = new[Limiter] in
    spawn { limiter(l, 2) };
    spawn { client(l, 1) };
    spawn { client(l, 2) };
    client(l, 3)
}
