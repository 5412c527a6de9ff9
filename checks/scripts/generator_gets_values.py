def g():
    x = 10 + (yield 1) * (yield 2)
    yield x
h = g()
print(next(h))
print(h.send(3))
print(h.send(4))
