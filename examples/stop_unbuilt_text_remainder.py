print("so far")
print("a" % 1)
