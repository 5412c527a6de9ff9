print("before")
print(later)
later = 1
