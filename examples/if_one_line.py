x = 2
if x == 2: print("two"); print("again")
if x == 3: print("three")
else: print("other")
