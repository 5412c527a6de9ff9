print("a" == "a")
print("a" == "b")
print("1" == 1)
print("a" != "A")
