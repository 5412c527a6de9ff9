while 0:
    print("never")
else:
    print("at once")
