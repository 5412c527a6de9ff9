d = {(1, True): "a", range(0): "b"}
d[(True, 1)] = "c"
del d[range(5, 2)]
print(d)
