"""Reads the counts that callgrind left, one for each call, and compares them within each pair, for each shape of the note or for views: compare.py FOLDER."""
import re
import sys
from collections import Counter
from pathlib import Path

folder = Path(sys.argv[1])
told = [line.split() for line in (folder / "refusals").read_text().splitlines()]
counts = []
for call in range(1, 2 * len(told) + 1):
    found = re.search(r"^(?:totals|summary): (\d+)", (folder / f"count.{call}").read_text(), re.M)
    counts.append(int(found[1]))
pairs = list(zip(told, counts[::2], counts[1::2]))
any_differ = not told
for shape in dict.fromkeys(of for of, _ in told):
    what = "views" if shape == "views" else f"note in the {shape} shape"
    own = [(refusal, a, b) for (of, refusal), a, b in pairs if of == shape]
    differ = [(k, a, b) for k, (_, a, b) in enumerate(own) if a != b]
    print(len(own), f"pairs, {what}; refusals:", dict(sorted(Counter(int(refusal) for refusal, _, _ in own).items())))
    print("instructions of a call: from", min(min(a, b) for _, a, b in own), "to", max(max(a, b) for _, a, b in own))
    print("pairs with different counts:", len(differ))
    for k, a, b in differ[:5]:
        print("  pair", k, a, b)
    any_differ = any_differ or bool(differ) or len(own) == 0
sys.exit(1 if any_differ else 0)
