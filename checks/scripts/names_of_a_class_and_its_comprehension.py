x = "g"
class C:
    x = "c"
    a = [(y, x) for y in [x]]
    def m(self):
        return x
print(C.a, C().m())
