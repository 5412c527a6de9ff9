x = 5
if x > 3:
    print("more")
else:
    print("less")
if x < 3:
    print("less")
else:
    print("more")
