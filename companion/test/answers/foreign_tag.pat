interface Lock { Take(), Release() }

def main(): Unit { let l = new[Lock] in l ! Relase(); guard l : Release { receive Release() from l -> free(l) } }
