x = 1
x = print(x) + 1
print("never")
