while False:
    pass
else:
    print(1 - "x")
