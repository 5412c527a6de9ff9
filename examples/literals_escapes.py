print("tab\tand\nline")
print("quote \" and \' and \\")
print("\x41\u00e9\U0001F600\101")
print('a\
b')
print(r"raw \n \d")
