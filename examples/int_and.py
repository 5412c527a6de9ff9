print(12 & 10)
print(-12 & 10)
print(-1 & 255)
