x = None
print(x is not None)
print(True is not False)
