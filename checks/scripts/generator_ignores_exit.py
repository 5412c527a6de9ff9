def g():
    try:
        yield 1
    finally:
        print("f")
h = g()
next(h)
h.close()
h.close()
def k():
    try:
        yield 1
    finally:
        yield 2
m = k()
next(m)
m.close()
