i = 0
while i < 4:
    j = 0
    while j < 4:
        j += 1
        if j == i:
            continue
        if i + j > 5:
            break
        print(i * 10 + j)
    else:
        print("row whole")
    i += 1
