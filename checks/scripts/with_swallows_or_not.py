class M:
    def __init__(self, v):
        self.v = v
    def __enter__(self):
        return self.v
    def __exit__(self, t, e, b):
        print(t is ValueError)
        return self.v
with M(True) as q:
    raise ValueError("a")
print("on", q)
with M(False):
    raise ValueError("b")
