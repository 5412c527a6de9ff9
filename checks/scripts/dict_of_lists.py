d = {}
for i, c in [(0, "b"), (1, "a"), (2, "b")]:
    d[c] = d.get(c, []) + [i]
def f(*a, k="c", **kw): return k
print(d, sum([len(d[c]) for c in d]), f(1, z=2))
[1][1]
