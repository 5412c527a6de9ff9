i = 0
while i < 3:
    i += 1
    if i == 2:
        continue
    print(i)
else:
    print("else")
while True:
    break
else:
    print("no")
