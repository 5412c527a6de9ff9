def outer(n):
    def add(k=2):
        nonlocal n
        n += k
        return n
    return add
def twice(f):
    return lambda: f() and f(0)
@twice
def g(a=3):
    return a
print(outer(1)())
print(g() or 3)
