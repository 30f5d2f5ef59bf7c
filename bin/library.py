"""Proves and builds the crate of the library, and notes from what. embed/Makefile starts it."""
import interpreter  # first: it looks at the Python
import subprocess
import sys
import time

from crates import LIBRARY, note_product, parts_of
from starter import output_of


def main():
    begun, toolchain = time.time(), output_of("rt", "version") or "unknown"
    parts = parts_of("nit_c", toolchain)
    ended = subprocess.run(["rt", "lib"], cwd=parts[-1].folder, check=False)
    if ended.returncode:
        return ended.returncode
    if parts_of("nit_c", toolchain)[-1].sum != parts[-1].sum:
        print("embed: a source has changed while the library was built; start it again",
              file=sys.stderr)
        return 1
    note_product(parts, toolchain, begun, LIBRARY)
    return 0


if __name__ == "__main__":
    sys.exit(main())
