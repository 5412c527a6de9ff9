def i():
    print("i")
    return 0
x = [1]
x[i()] += 5
print(x)
