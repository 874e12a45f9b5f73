"""apart.py MODULE NAME: marks a function of an LLVM module in text as external and never inlined."""
import re
import sys

path, name = sys.argv[1:]
lines, met = [], False
for line in open(path):
    if re.match('define internal [^@]*@"%s"\\(' % re.escape(name), line):
        line = line.replace("define internal ", "define ", 1).replace(") #", ") noinline #", 1)
        met = True
    lines.append(line)
if not met:
    sys.exit("apart: not in the program: " + name)
open(path, "w").writelines(lines)
