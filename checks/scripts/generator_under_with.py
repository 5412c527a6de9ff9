class W:
    def __enter__(self): print("in")
    def __exit__(self, a, b, c):
        print("out")
        return True
def g():
    with W():
        x = [(yield)]
def h():
    for i in range(2): yield i
for i in h(): print(i)
print([y * y for y in (z for z in range(4)) if y > 1])
k = g()
next(k)
try:
    k.throw(KeyError)
except StopIteration:
    pass
