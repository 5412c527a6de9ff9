def f(x):
    return 10 // x
try:
    f(0)
except ZeroDivisionError as e:
    raise e
