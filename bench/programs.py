"""The programs that are measured."""
import pathlib
import shutil
import subprocess

HERE = pathlib.Path(__file__).resolve().parent
BUILT = HERE.parent / "crates" / "perfly" / "out" / "perfly"


def build(name, folder):
    """The command of a program in C of this folder; None where there is no C compiler."""
    compiler = shutil.which("cc") or shutil.which("gcc") or shutil.which("clang")
    if compiler is None:
        return None
    program = folder / name
    subprocess.run([compiler, "-std=c99", "-O2", "-o", str(program), str(HERE / f"{name}.c"), "-lm", "-pthread"], check=True)
    return [str(program)]
