s = "ab" * 8388608
print(s == s)
s += "c"
