"""The longest way down from a function: frames.py MODULE.su OPTIMIZED.ll BYTES NAME, the frames of each function that clang tells, the calls of the optimized
module, the bytes that a call takes beside its frame, and the function."""
import re
import sys

frames = {}
for line in open(sys.argv[1], encoding="utf-8"):
    where, size, _ = line.rstrip("\n").split("\t")
    frames[re.sub(r"^[^:]*:(?:\d+:\d+:)?", "", where)] = int(size)
calls, name = {}, None
for line in open(sys.argv[2], encoding="utf-8"):
    begun = re.match(r'define .*?@(?:"([^"]+)"|([\w.]+))\(', line)
    if begun:
        name = begun[1] or begun[2]
        calls[name] = set()
    elif name and " call " in line:
        called = re.search(r'@(?:"([^"]+)"|([\w.]+))\(', line)
        assert called, "a call of no name: " + line
        calls[name].add(called[1] or called[2])


def deepest(name, above=()):
    assert name not in above, "a function calls itself: " + name
    below = [deepest(other, above + (name,)) for other in calls.get(name, ()) if other in calls]
    most = max(below, default=(0, []))
    return frames[name] + int(sys.argv[3]) + most[0], [f"{name} {frames[name]}"] + most[1]


total, way = deepest(sys.argv[4])
print(f"{total} bytes:", ", ".join(way))
