try:
    print(input() + input())
    print(input())
finally:
    print("end")
