#!/usr/bin/env python3
"""Fails where a function of the archive uses the register r11 before its prologue probes a large frame: this kit's LLVM probes with
r11 and does not keep what stands in it.

    python3 tools/library/probes.py target/staticlib/libexports.a"""
import re
import subprocess
import sys

listing = subprocess.run(["objdump", "-d", "--no-show-raw-insn", sys.argv[1]], capture_output=True, text=True, check=True).stdout
functions, name = {}, None
for line in listing.split("\n"):
    m = re.match(r"^[0-9a-f]+ <(.*)>:", line)
    if m:
        name = m.group(1)
        functions[name] = []
    elif name and "\t" in line:
        functions[name].append(line.split("\t", 1)[1].strip())
wrong = probed = 0
for name, steps in functions.items():
    probe = next((i for i, s in enumerate(steps) if re.match(r"mov\s+%rsp,%r11|lea\s+-0x[0-9a-f]+\(%rsp\),%r11", s)), None)
    if probe is None:
        continue
    probed += 1
    if any("r11" in s for s in steps[:probe]):
        wrong += 1
        print(f"{name}: r11 is in use where the frame is probed")
print(f"{probed} functions probe their frame, {wrong} with r11 in use")
sys.exit(1 if wrong else 0)
