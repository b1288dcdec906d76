#!/usr/bin/env python3
"""README's table of numbers has each refusal of medium/Refusal `number_of`, by number and name, and no other; include/store.h has the first twelve."""
import os
import re
import sys

os.chdir(os.path.join(os.path.dirname(os.path.abspath(__file__)), "..", ".."))
read = lambda path: open(path, encoding="utf-8").read()

defined = {int(n): name for name, n in re.findall(r"^number_of no\.(\w+) = (\d+)$", read("crates/medium/specs/Refusal.antt"), re.M)}
section = re.search(r"\n## The numbers of a refusal\n(.*?)\n## ", read("README.md"), re.S)
told = [(int(n), name) for n, name in re.findall(r"^\| (\d+) \| (\w+) \|", section.group(1) if section else "", re.M)]
in_c = [(int(n), name.replace("_", "").lower()) for name, n in re.findall(r"^    STORE_E_(\w+) = (\d+)", read("include/store.h"), re.M)]

wrong = 0
if not defined or told != sorted(defined.items()):
    wrong += 1
    print(f"numbers: README has {told}, medium/Refusal {sorted(defined.items())}")
if in_c != [(n, defined[n].lower()) for n in range(1, 13)]:
    wrong += 1
    print(f"numbers: include/store.h has {in_c}")
print(f"numbers: {len(told)} of README and {len(in_c)} of include/store.h, {len(defined)} defined; {wrong} tables differ")
sys.exit(wrong > 0)
