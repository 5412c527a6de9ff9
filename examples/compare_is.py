x = None
print(x is None)
x = False
print(x is None)
print(x is False)
print(x is True)
