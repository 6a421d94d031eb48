// A future: a mailbox that is filled once, and then answers each question with what it holds.
interface Future { Put(Int), Get(User!Reply) }
interface User { Reply(Int) }

def future(self: Future?): Unit {
    guard self : Put.*Get { receive Put(x) from self -> resolved(self, x) }
}

def resolved(self: Future?, x: Int): Unit {
    guard self : *Get {
        free -> ()
        receive Get(user) from self -> user ! Reply(x); resolved(self, x)
    }
}

def main(): Unit {
    let f = new[Future] in
    spawn { future(f) };
    let me = new[User] in
    spawn { f ! Put(5) };
    f ! Get(me);
    guard me : Reply { receive Reply(x) from me -> free(me); print(x) }
}
