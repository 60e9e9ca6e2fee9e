"""The kit's `rattle` on single crates, over the libraries that `rt ci` left in crates/*/out/rlib: none of them is proved again. (`rt check`
and `rt lib` build libraries of their own, which they mark by a file `stamp`; where there are any, `rt` brings them up to date.)

.ci/kit.py NAME..   compiles the static libraries NAME.. as crates/NAME/out/libNAME.a
"""
import concurrent.futures
import functools
import os
import pathlib
import subprocess
import sys

ROOT = pathlib.Path(__file__).resolve().parent.parent
KIT = pathlib.Path(subprocess.run(["rt", "doc"], check=True, capture_output=True, text=True).stdout.strip()).parent


def read_crates():
    """By its name whether each crate of crates.txt is a static library, and the crates that it names."""
    crates = {}
    for line in (ROOT / "crates.txt").read_text(encoding="utf-8").splitlines():
        head, colon, rest = line.split("#", 1)[0].partition(":")
        if colon:
            name, *kind = head.split()
            crates[name] = "staticlib" in kind, rest.split()
    return crates


CRATES = read_crates()


@functools.lru_cache(maxsize=None)
def below(name):
    """The crates below a crate, each once."""
    return tuple(dict.fromkeys(each for dep in CRATES[name][1] for each in (*below(dep), dep)))


def root_file(name):
    return "src/main.rt" if (ROOT / "crates" / name / "src/main.rt").exists() else "src/lib.rt"


def bring_up_to_date(names):
    """Where a library below these crates is missing, or is not what `rt ci` built, has `rt` build those that are not as the files say."""
    wanted = {dep for name in names for dep in below(name)}
    rlib = {dep: ROOT / "crates" / dep / "out/rlib" for dep in wanted}
    if all((rlib[dep] / f"{dep}.rlib").is_dir() and not (rlib[dep] / "stamp").exists() for dep in wanted):
        return
    covered = {low for dep in wanted for low in below(dep)}
    for dep in sorted(wanted - covered):
        if subprocess.run(["rt", "lib"], cwd=ROOT / "crates" / dep).returncode:
            sys.exit(f"{dep}: not built")


def words(name, command, *more):
    """The command that checks or builds a crate in the current folder."""
    rlib = {dep: ROOT / "crates" / dep / "out/rlib" for dep in below(name)}
    found = [f"{KIT}/bin/rattle", command, "--crate-name", name, root_file(name)]
    found += ["--extern", f"std={KIT}/rlibs/std.rlib", "-L", f"dependency={KIT}/rlibs"]
    for dep in CRATES[name][1]:
        found += ["--extern", f"{dep}={rlib[dep]}/{dep}.rlib"]
    for folder in rlib.values():
        found += ["-L", f"dependency={folder}"]
    found += ["--antt-project", f"{KIT}/rattle/logic/antt-project.json", "--logic-built", f"{KIT}/logic_built"]
    found += ["--links", f"{name}="] + ["--crate-type", "staticlib"] * CRATES[name][0]
    return [*found, *more]


def build(name):
    """Compiles a static library: the status, and what was said."""
    folder = ROOT / "crates" / name
    os.makedirs(folder / "out", exist_ok=True)
    command = words(name, "build", "--jobs", "2", "--toolchain", f"{KIT}/toolchain", "--backend", "llvm", "-o", f"out/lib{name}.a")
    ran = subprocess.run(command, cwd=folder, stdin=subprocess.DEVNULL, stdout=subprocess.PIPE, stderr=subprocess.STDOUT, errors="replace")
    return ran.returncode, ran.stdout


def main(names):
    bring_up_to_date(names)
    with concurrent.futures.ThreadPoolExecutor(2) as pool:
        built = [*pool.map(build, names)]
    for name, (status, said) in zip(names, built):
        print(f"{name}: {said.splitlines()[-1]}" if status == 0 else f"{said}\n{name}: not built")
    return max(status != 0 for status, _ in built)


if __name__ == "__main__":
    sys.exit(main(sys.argv[1:]))
