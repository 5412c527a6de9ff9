print("before")
x = 7 // 0
print("after")
