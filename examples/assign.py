x = 1
print(x)
x = "now a text"
print(x)
