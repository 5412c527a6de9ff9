# a comment

x = 1; y = 2;  # two statements
	
print(x + y)   # three
