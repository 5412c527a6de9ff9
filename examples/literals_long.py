print("""first
second
  third""")
print('''it's "quoted"''')
