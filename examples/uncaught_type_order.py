if 1 < 2:
    print("so far")
    if "a" < 1:
        print("never")
