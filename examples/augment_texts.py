s = "a"
s += "b"
print(s)
s *= 3
print(s)
t = s
t += "!"
print(s)
print(t)
