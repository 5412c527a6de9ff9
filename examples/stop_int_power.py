print(2 ** 127)
