// A chat room: its members say things, which all members hear.
interface Room { Say(Int, String) }
interface Member { Said(String) }

def room(self: Room?, a: Member!, b: Member!): Unit {
    guard self : *Say {
        free -> ()
        receive Say(who, text) from self -> if who == 1 { b ! Said(text) } else { a ! Said(text) }; room(self, a, b)
    }
}

def member(self: Member?): Unit {
    guard self : *Said {
        free -> ()
        receive Said(text) from self -> print(text); member(self)
    }
}

def main(): Unit {
    let room1 = new[Room] in
    let anna = new[Member] in
    let ben = new[Member] in
    spawn { room(room1, anna, ben) };
    spawn { member(anna) };
    spawn { member(ben) };
    room1 ! Say(1, "hello");
    room1 ! Say(2, "and you")
}
