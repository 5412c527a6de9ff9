print("ab" + "cd")
print("" + "x" + "")
