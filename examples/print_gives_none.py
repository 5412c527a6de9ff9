x = print("inner")
print(x)
print(print("nested"))
