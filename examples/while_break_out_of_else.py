i = 0
while i < 3:
    i += 1
    while False:
        pass
    else:
        break
print(i)
