x = (1 +
     2 +
     3)
y = 4 + \
    5
print(
    x * y
)
