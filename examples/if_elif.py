n = 0
while n < 5:
    if n == 0:
        print("none")
    elif n == 1:
        print("one")
    elif n < 4:
        print("few")
    else:
        print("many")
    n += 1
