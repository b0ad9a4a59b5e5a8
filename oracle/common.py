"""What the scripts of oracle/ and tests/ share. A script that cannot run ends with one line and exit status 2."""

import argparse
import re
import shutil
import subprocess
import sys
from functools import cache
from importlib.machinery import SourceFileLoader
from importlib.util import module_from_spec, spec_from_loader
from pathlib import Path

ROOT = Path(__file__).resolve().parent.parent
SHEET = ",".join(str(n) for n in [*range(1, 28), *range(1, 7)])     # document 01's example sheet
OLD_CODE = 16_384                                                   # document 01's code limit, which 02's L1 raised: our tables change size there


def limits():
    """The oracle's limits by name, as CODE (oracle/shim/limits.rs)."""
    found = re.findall(r"pub const (\w+): \w+ = ([\d_]+);", (ROOT / "oracle/shim/limits.rs").read_text())
    return {name: int(number) for name, number in found}


def options(doc):
    """A parser of the command line, with the script's comment as its help."""
    return argparse.ArgumentParser(description=doc, formatter_class=argparse.RawDescriptionHelpFormatter)


def stop(text):
    print(f"{Path(sys.argv[0]).resolve().relative_to(ROOT)}: {text}", file=sys.stderr)
    sys.exit(2)


def needs(tool):
    if not shutil.which(tool):
        stop(f"{tool} is not on the PATH")


def functions_of(script):
    """Another script's functions, as those of tests/compile-cases."""
    loader = SourceFileLoader(script.replace("-", "_"), str(ROOT / "tests" / script))
    module = module_from_spec(spec_from_loader(loader.name, loader))
    kept, sys.dont_write_bytecode = sys.dont_write_bytecode, True
    loader.exec_module(module)
    sys.dont_write_bytecode = kept
    return module


@cache
def made(script, *words):
    """Runs oracle/assemble, oracle/build or oracle/link; the folder or the program that it prints. Where it fails it has said why."""
    run = subprocess.run([ROOT / "oracle" / script, *words], stdout=subprocess.PIPE, text=True)
    if run.returncode:
        sys.exit(2)
    return Path(run.stdout.strip())


def proved(*names):
    """Proves crates and builds what they are (tools/build)."""
    needs("rt")
    run = subprocess.run([ROOT / "tools/build", *names], stdout=subprocess.PIPE, stderr=subprocess.STDOUT, text=True)
    if run.returncode:
        print("\n".join(run.stdout.splitlines()[-12:]), file=sys.stderr)
        stop(f"`tools/build {' '.join(names)}` failed (above)")
