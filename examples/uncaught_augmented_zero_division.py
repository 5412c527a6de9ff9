x = 3
y = 0
x //= y
