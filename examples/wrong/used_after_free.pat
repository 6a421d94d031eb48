// A mailbox is sent to after it was freed. Mended by sending first.
interface User { Reply(Int) }

def main(): Unit {
    let me = new[User] in
    free(me);
    me ! Reply(5)
}
