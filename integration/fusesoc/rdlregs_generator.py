#!/usr/bin/env python3
"""Makes the module of a register description for FuseSoC, and a core file that names it.

FuseSoC calls a generator with a file of what is asked for: `files_root`, `vlnv` and `parameters`, which are here `source`, and if
wanted `waits`, `top` and `program`."""
import os
import subprocess
import sys

import yaml


def main():
    with open(sys.argv[1], encoding="utf-8") as asked:
        asked = yaml.safe_load(asked)
    wanted = asked["parameters"]
    words = [wanted.get("program", "rdlregs"), "compile"]
    for name in ("waits", "top"):
        if name in wanted:
            words += [f"--{name}", str(wanted[name])]
    source = os.path.join(asked.get("files_root", "."), wanted["source"])
    module = os.path.splitext(os.path.basename(source))[0] + "_regs.v"
    with open(module, "wb") as out:
        status = subprocess.run([*words, source], stdout=out, check=False).returncode
    if status:
        os.remove(module)
        return status
    core = {
        "name": asked["vlnv"],
        "filesets": {"rtl": {"files": [module], "file_type": "verilogSource"}},
        "targets": {"default": {"filesets": ["rtl"]}},
    }
    with open(asked["vlnv"].split(":")[2] + ".core", "w", encoding="utf-8") as out:
        out.write("CAPI=2:\n")
        yaml.safe_dump(core, out, sort_keys=False)
    return 0


if __name__ == "__main__":
    sys.exit(main())
