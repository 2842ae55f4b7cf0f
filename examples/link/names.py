"""Compares what the header declares with what the library exports, and its answers' numbers with those of the contracts.
Called with the output of nm."""
import os
import re
import sys

here = os.path.dirname(os.path.abspath(__file__))
header = open(os.path.join(here, "../../include/wagtenib.h"), encoding="utf-8").read()
codes = open(os.path.join(here, "../../crates/libwagtenib/specs/Codes.antt"), encoding="utf-8").read()

# (a build option, which the library that the kit makes does not have)
without_option = re.sub(r"^#ifdef WAGTENIB_SHA_INSTRUCTIONS$.*?^#endif$", "", header, flags=re.S | re.M)
declared = set(re.findall(r"\b(wagtenib_\w+)\(", re.sub(r"/\*.*?\*/", "", without_option, flags=re.S)))
exported = {line.split()[-1] for line in open(sys.argv[1], encoding="utf-8") if " T " in line and "::" not in line}
exported = {name for name in exported if not name.startswith("rattle_")}
answers = {name.replace("_", "").lower(): int(number) for name, number in re.findall(r"WAGTENIB_(\w+) = (\d+)", header)}
promised = {name.lower(): int(number) for name, number in re.findall(r"^(?:proof_code|leaf_code) (?!Memory)(\w+) = (\d+)$", codes, re.M)}
for crate in ("libwagtenib",):
    constants = open(os.path.join(here, f"../../crates/{crate}/src/codes.rt"), encoding="utf-8").read()
    promised |= {name.replace("_", "").lower(): int(number) for name, number in re.findall(r"^pub const (\w+): u32 = (\d+);$", constants, re.M)}

for what, one, other in (("functions", declared, exported), ("answers", answers, promised)):
    if one != other or not one:
        sys.exit(f"The header and the library have other {what}: {sorted(set(one) ^ set(other)) or (one, other)}")
print(f"The header and the library have the same {len(declared)} functions and {len(answers)} answers.")
