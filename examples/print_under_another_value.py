p = print
print(p == print)
print(p is None)
