class Task:
    def __init__(self, name, n):
        self.name = name
        self.n = n
    def steps(self):
        for i in range(self.n):
            line = yield self.name + str(i)
            if line is not None:
                print(self.name, "got", line)
tasks = [Task(c, n).steps() for c, n in [("a", 2), ("b", 1), ("c", 3)]]
count = {}
lines = []
while True:
    try:
        lines.append(input())
    except EOFError:
        break
fresh = list(tasks)
while tasks:
    t = tasks.pop(0)
    try:
        if t in fresh:
            fresh.remove(t)
            v = next(t)
        else:
            v = t.send(lines.pop(0) if lines else None)
        count[v[0]] = count.get(v[0], 0) + 1
        print(v)
        tasks.append(t)
    except StopIteration:
        print("end")
for k in sorted(count):
    print(k, count[k])
