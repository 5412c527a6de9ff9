def f():
    print("f")
    return 2
print(1 < f() < 3)
