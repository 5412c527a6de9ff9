print(2 ** 2)
print(2 ** -1)
