print(None)
print(True)
print(False)
