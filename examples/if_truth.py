if 0:
    print("zero")
elif "":
    print("empty")
elif None:
    print("none")
elif "x":
    print("a text is true")
if not 0:
    print("not zero")
