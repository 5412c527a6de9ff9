print = "a text"
print(1)
