a = 3
b = 4
if a < b:
    if a == 3:
        if b == 5:
            print("no")
        else:
            print("yes")
    else:
        print("no")
