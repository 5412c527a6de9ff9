print(1 != 1)
print(1 != 2)
print("x" != None)
