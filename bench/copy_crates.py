"""Copies what the office's requests stand on, without tests, for bench/frame.sh: TOP FOLDER."""

import sys
from importlib.machinery import SourceFileLoader
top, work = sys.argv[1:]
build = SourceFileLoader("build", f"{top}/tools/build").load_module()
lines = {line.split(":")[0].split()[0]: line for line in open(f"{top}/crates.txt") if ":" in line}
wanted, left = set(), ["office_wire"]
while left:
    name = left.pop()
    if name in lines and name not in wanted:
        wanted.add(name)
        left += lines[name].split(":")[1].split()
for name in wanted:
    for part in ("src", "specs", "proofs"):
        if build.os.path.isdir(f"{top}/crates/{name}/{part}"):
            build.put(f"{top}/crates/{name}/{part}", f"{work}/crates/{name}/{part}")
build.write(f"{work}/HANDLES", build.read(f"{top}/HANDLES"))
build.write(f"{work}/crates.txt", "".join(lines[name] for name in sorted(wanted)))
