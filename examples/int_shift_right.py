print(40 >> 3)
print(-40 >> 3)
print(-1 >> 200)
print(1 >> 200)
