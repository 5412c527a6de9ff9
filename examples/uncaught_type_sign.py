print(-5)
print(-"a")
