print("before")
print = 3
print("after")
