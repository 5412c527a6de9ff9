1 + 1
"a text"
print
not 3
print("nothing was shown before")
