print(True == 1)
print(False < True)
print(True > 0)
print(True != 2)
