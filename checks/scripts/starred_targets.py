a, *b, c = range(5)
print(a, b, c)
a, *b, c = [1]
