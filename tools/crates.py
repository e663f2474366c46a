"""The crates of crates.txt, what they use, and how the toolchain's own command `rattle` is told of them, as rt tells it.
For tools/program, tools/staticlib, tools/native, tools/size and tools/times."""
import functools
import os
import pathlib
import subprocess

TOP = pathlib.Path(__file__).resolve().parent.parent
PARTS = ("src", "specs", "proofs")  # what a crate is made from

# The archives are for every x86-64 processor. rt's own choice is x86-64-v2, which the oldest of them are not.
CPU = "x86-64"


@functools.lru_cache(maxsize=None)
def kit():
    """The toolchain's folder."""
    return pathlib.Path(subprocess.run(["rt", "doc"], capture_output=True, text=True, check=True).stdout.strip()).parent


def tool(name):
    """One of the toolchain's LLVM tools."""
    return kit() / "toolchain" / "bin" / name


@functools.lru_cache(maxsize=None)
def listed(top=TOP):
    """By name, whether a crate is a static library, and what it uses, as crates.txt says."""
    found = {}
    for line in (top / "crates.txt").read_text().splitlines():
        head, colon, uses = line.partition("#")[0].partition(":")
        if colon:
            name, *words = head.split()
            found[name] = "staticlib" in words, uses.split()
    return found


def below(name):
    """The crates of the project that a crate uses, directly or not, each after those that it uses itself."""
    own, order = listed(), []
    for use in own[name][1]:
        if use in own:
            order += [it for it in [*below(use), use] if it not in order]
    return order


def folder(name, top=TOP):
    return top / "crates" / name


def is_program(name):
    return (folder(name) / "src/main.rt").exists()


def rlib(name, top=TOP):
    """Where rt puts a library, for the crates above it."""
    return folder(name, top) / "out" / "rlib" / f"{name}.rlib"


def is_newer(made, *names):
    """Whether something made is newer than all that these crates and those below them are made from, and than the toolchain."""
    if not made.exists():
        return False
    sources = [TOP / "crates.txt", kit() / "KIT-ID"]
    for name in {it for name in names for it in [name, *below(name)]}:
        for part in PARTS:
            for at, _, files in os.walk(folder(name) / part):
                sources += [at, *(f"{at}/{file}" for file in files)]
    last = max(os.stat(it).st_mtime_ns for it in sources)
    return made.stat().st_mtime_ns > last


def rattle(command, name, *words, top=TOP):
    """The toolchain's own command for a crate, over the libraries that stand in out/. It proves the crate from nothing, whatever the command is."""
    is_static, uses = listed()[name]
    root = "src/main.rt" if is_program(name) else "src/lib.rt"
    whole = [kit() / "bin/rattle", command, "--crate-name", name, root, "--extern", f"std={kit()}/rlibs/std.rlib", "-L", f"dependency={kit()}/rlibs"]
    for use in uses:
        whole += ["--extern", f"{use}={rlib(use, top) if use in listed() else kit() / 'rlibs' / f'{use}.rlib'}"]
    for use in below(name):
        whole += ["-L", f"dependency={rlib(use, top).parent}"]
    whole += ["--antt-project", kit() / "rattle/logic/antt-project.json", "--logic-built", kit() / "logic_built", "--links", f"{name}="]
    return [*whole, *["--crate-type", "staticlib"] * is_static, *words]


def build_archive(name, to, toolchain=None):
    """Proves a static library and compiles it, over the libraries that stand in out/; what was said, and whether it is made."""
    words = rattle("build", name, "--cpu", CPU, "--toolchain", toolchain or kit() / "toolchain", "--backend", "llvm", "-o", to)
    ran = subprocess.run(words, cwd=folder(name), stdin=subprocess.DEVNULL, stdout=subprocess.PIPE, stderr=subprocess.STDOUT, text=True)
    return ran.stdout, ran.returncode == 0


def archive_crate(name):
    """The crate that makes the archive of that name: a static library is a crate of its own, beside the library."""
    for crate in (f"{name}_c", name):
        if listed().get(crate, (False, []))[0]:
            return crate
    raise SystemExit(f"tools: crates.txt has no static library {name} or {name}_c")
