def g():
    try:
        1 // 0
    finally:
        yield 1
h = g()
print(next(h))
try:
    h.send(None)
except ZeroDivisionError:
    print("z")
k = g()
next(k)
try:
    k.throw(KeyError("a"))
except KeyError as e:
    print(e)
