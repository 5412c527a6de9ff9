x = print("first") == print("second")
print(x)
print(print("left") is print("right"))
