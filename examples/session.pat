// Two parties that follow a protocol: the client chooses to add or to negate, sends the numbers, and gets the answer.
// Shows: a choice is a sum and a sequence is a product; a guard takes the messages in the order that the server wants.
interface Server { Add(Client!Answer), Negate(Client!Answer), Left(Int), Right(Int) }
interface Client { Answer(Int) }

def server(self: Server?): Unit {
    guard self : Add.Left.Right + Negate.Left {
        receive Add(client) from self ->
            guard self : Left.Right {
                receive Left(x) from self ->
                    guard self : Right { receive Right(y) from self -> free(self); client ! Answer(x + y) }
            }
        receive Negate(client) from self ->
            guard self : Left { receive Left(x) from self -> free(self); client ! Answer(0 - x) }
    }
}

def answered(me: Client?): Unit {
    guard me : Answer { receive Answer(x) from me -> free(me); print(x) }
}

def add(server: Server!Add.Left.Right): Unit {
    let me = new[Client] in
    server ! Right(2);                                  // sent first, and looked at last
    server ! Left(40);
    server ! Add(me);
    answered(me)
}

def negate(server: Server!Negate.Left): Unit {
    let me = new[Client] in
    server ! Negate(me);
    server ! Left(7);
    answered(me)
}

def main(): Unit {
    let s = new[Server] in
    spawn { server(s) };
    add(s);
    let t = new[Server] in
    spawn { server(t) };
    negate(t)
}
