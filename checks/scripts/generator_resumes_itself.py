def g():
    yield next(h)
h = g()
next(h)
