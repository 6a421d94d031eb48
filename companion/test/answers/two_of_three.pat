interface R { Part(Int) }
def main(): Unit { let r = new[R] in spawn { r ! Part(1) }; spawn { r ! Part(2) };
  guard r : Part.Part.Part { receive Part(a) from r -> guard r : Part.Part { receive Part(b) from r -> guard r : Part { receive Part(c) from r -> free(r); print(a + b + c) } } } }
