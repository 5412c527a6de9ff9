most = 170141183460469231731687303715884105727
least = -most - 1
print(most)
print(least)
print(most + least)
print(least // 2)
print(~most == least)
