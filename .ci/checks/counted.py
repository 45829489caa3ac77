"""For the check-* scripts in Python, which import it: tests/oracle/scan, the built programs, and
what passed and what did not, with the last line that .ci/run adds up."""
import importlib.machinery
import importlib.util
import os
import pathlib
import subprocess
import sys

os.chdir(pathlib.Path(__file__).resolve().parents[2])
passed = failed = 0


def tool(name):
    """The tool of this name, whose file has no ending."""
    loader = importlib.machinery.SourceFileLoader(name, f"tests/oracle/{name}")
    module = importlib.util.module_from_spec(importlib.util.spec_from_loader(name, loader))
    loader.exec_module(module)
    return module


scan = tool("scan")


def check(what, why):
    """Counts what was looked at: it failed where there is a reason why."""
    global passed, failed
    if why:
        failed += 1
        print("--", f"{what}: {why}")
    else:
        passed += 1


def programs(name):
    """The program as LLVM builds it and, where `rt ci` left that, as Rattle's own compiler does."""
    built = subprocess.run(["scripts/built", name], capture_output=True, text=True)
    if built.returncode:
        check(f"there is no {name} to run", built.stderr)
        return []
    by_llvm = built.stdout.strip()
    return [program for program in (by_llvm, by_llvm + ".by-rattle") if os.access(program, os.X_OK)]


def finish():
    print(f"{passed} passed, {failed} failed")
    sys.exit(failed != 0)
