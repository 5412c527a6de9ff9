print(~0)
print(~-1)
print(~12345)
