class E(ValueError):
    def __init__(self, a, b):
        self.__a = a
class F(E): pass
x = F(1, 2)
try:
    raise F(2)
except TypeError:
    print(x._E__a, (2,), isinstance(x, ValueError))
class L:
    def __len__(self): return 2
print(len(L()))
