def inner():
    try:
        yield 1
    except ValueError:
        return 5
def outer():
    r = yield from inner()
    yield r
h = outer()
print(next(h))
print(h.throw(ValueError))
