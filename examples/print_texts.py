print("a text")
print('another')
print("")
print("two" " joined " 'texts')
