"""A small book as text, written by hand from docs/RULES.md and FORMATS.md: a product of 250 g (T1
241 g, T2 232 g), a tare of 10 g that is corrected to 10.2 g, one batch of six packs, one of which
was rejected, one whose gate stayed shut and one that was voided."""

LINES = """\
1 ok\tscript\tday 2025-03-03
2 ok\tscript\tproduct rice250 250.000
3 ok\tscript\ttare rice250 2025-03-03 10.000
4 ok\tdoor 1\t@101 1 open A rice250
5 ok\tlane 1\tstart 1 A
6 pass\tlane 1\tweigh 1 262.000 none
7 pass\tlane 1\tweigh 1 261.000 opened
8 reject inadequate\tlane 1\tweigh 1 241.900 stayed
9 pass\tlane 1\tweigh 1 251.100 none
10 pass\tlane 1\tweigh 1 263.305 opened
11 pass\tlane 1\tweigh 1 260.000 opened
12 ok\tlane 1\tstop 1 opened
13 ok\tdoor 1\t@101 2 void 10
14 ok\tdoor 1\t@101 3 tare rice250 2025-03-03 10.200
15 ok\tdoor 2\t@102 1 end A
16 ok\tdoor 2\t@102 2 draw A keep 1
17 ok\tdoor 2\t@102 3 measure 6 262.000
"""

# Nets by 10.2 g; pack 9 holds 240.9 g, less than T1.
REGISTER = """\
pack,batch,product,lane,day,gross,net,class,signal,pile
6,A,rice250,1,2025-03-03,262.000,251.800,standard,pass,sampled
7,A,rice250,1,2025-03-03,261.000,250.800,standard,pass,rejected
8,A,rice250,1,2025-03-03,241.900,231.700,inadequate,reject inadequate,rejected
9,A,rice250,1,2025-03-03,251.100,240.900,nonstandard,pass,sampled
10,A,rice250,1,2025-03-03,263.305,253.105,standard,pass,voided
11,A,rice250,1,2025-03-03,260.000,249.800,standard,pass,sampled
"""

SHEET = """\
batch A product rice250 nominal 250.000 tne 9.000
state drawn
readings 6 gross 1539.305
passed 0 gross 0.000
rejected 2 gross 502.900
sampled 3 gross 773.100
voided 1 gross 263.305
population 3 net 742.500 nonstandard 1 inadequate 0
held no
test keep first 3 measured 1 defective 0
"""


def long_book(packs: int) -> str:
    """A book of so many packs more, of one batch, on lane 1."""
    lines = LINES.splitlines()[:5]
    for row in range(6, 6 + packs):
        prior = "none" if row == 6 else "opened"
        lines.append(f"{row} pass\tlane 1\tweigh 1 26{row % 10}.{row % 1000:03} {prior}")
    return "".join(f"{line}\n" for line in lines)
