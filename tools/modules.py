"""The LLVM modules of the archives for C, compiled again as rattle compiles them, but with some of their exported functions alone: what only the others
use is gone, and what is called from one place can go in there, as in a program that calls nothing else. For tools/native, bench/run and tools/size."""
import filecmp
import os
import re
import shlex
import subprocess
import sys
import tempfile
from pathlib import Path

from crates import TOP, archive_crate, build_archive, folder, kit, tool

OUT = TOP / "target" / "native"
HOST = os.uname().machine


def made(name):
    """Makes the archive of a library and keeps its module: a toolchain whose compiler keeps the module that it is given. The words that rattle compiles it with."""
    subprocess.run([TOP / "tools/staticlib", name], stdout=subprocess.DEVNULL, check=True)
    OUT.mkdir(parents=True, exist_ok=True)
    # it holds links, and rt ci refuses a checkout with a link in it
    outside = tempfile.TemporaryDirectory()
    own = Path(outside.name)
    (own / "bin").mkdir()
    module, words = OUT / f"{name}.bc", OUT / f"{name}.words"
    keep = f'cp module.bc {shlex.quote(str(module))}\nprintf "%s\\n" "$@" >{shlex.quote(str(words))}\n'
    (own / "bin/clang").write_text(f'#!/bin/sh\n{keep}exec {shlex.quote(str(tool("clang")))} "$@"\n')
    (own / "bin/clang").chmod(0o755)
    for link, to in [("bin/ld.lld", tool("ld.lld")), ("bin/llvm-ar", tool("llvm-ar")), ("lib", kit() / "toolchain/lib")]:
        (own / link).symlink_to(to)
    archive = OUT / f"built-{name}.a"
    said, is_made = build_archive(archive_crate(name), archive, own)
    outside.cleanup()
    if not is_made:
        sys.exit(said)
    if not filecmp.cmp(archive, TOP / "target/staticlib" / f"lib{name}.a", shallow=False):
        sys.exit(f"tools/modules.py: {archive} is not the archive that tools/staticlib makes")
    return words_of(name)


def words_of(name):
    """The words with which rattle has a module compiled, less those that name files, and the target, which `clang` gives."""
    words, kept = (OUT / f"{name}.words").read_text().splitlines(), []
    while words:
        word = words.pop(0)
        if word in ("-x", "-o"):
            words.pop(0)
        elif word not in ("-c", "module.bc") and not word.startswith(("--target=", "--sysroot=")):
            kept.append(word)
    return kept


def make(*names):
    """Proves the crates, and makes their archives and modules."""
    for name in names:
        made(name)


def native(name, *words):
    """The module compiled again, with more words; where nothing is added, the code is that of the archive."""
    kept = made(name)
    obj, archive = OUT / f"{name}.o", OUT / f"lib{name}.a"
    clang(HOST, *kept, *words, "-c", "-x", "ir", OUT / f"{name}.bc", "-o", obj)
    archive.unlink(missing_ok=True)
    subprocess.run([tool("llvm-ar"), "rcs", archive, obj], check=True)
    return f"{archive} ({HOST})"


def exports_of(name):
    """The exported functions of a library's archive, in the order of their source."""
    return re.findall(r'^pub extern "C" fn (\w+)', (folder(archive_crate(name)) / "src/lib.rt").read_text(), re.M)


def clang(target, *words):
    ran = subprocess.run([tool("clang"), f"--target={target}-unknown-linux-gnu", "-Wno-override-module", *words], stderr=subprocess.PIPE, text=True)
    if ran.returncode:
        sys.exit(ran.stderr)


def compiled(name, exports, target, *words, apart=()):
    """The stem of what is made of a module with these exports: .o, and with further words of clang's what they make. Functions that are named as apart
    go into no caller."""
    stem = OUT / f"{name}.{target}.{exports[0] if len(exports) == 1 else 'all'}"
    code = stem.with_name(stem.name + ".ll")
    clang(target, "--no-default-config", "-Xclang", "-disable-llvm-passes", "-S", "-emit-llvm", "-x", "ir", OUT / f"{name}.bc", "-o", code)
    text = code.read_text()
    for other in set(exports_of(name)) - set(exports):
        text, found = re.subn(rf"^define (?=[^\n]*@{other}\()", "define internal ", text, flags=re.M)
        if found != 1:
            raise SystemExit(f"tools/modules.py: {name} has no exported function {other}")
    for kept in apart:
        text, found = re.subn(rf'^(define [^\n]*@"{kept}"\([^\n]*) {{$', r"\1 noinline {", text, flags=re.M)
        if found != 1:
            raise SystemExit(f"tools/modules.py: {name} has no function {kept}")
    code.write_text(text)
    clang(target, *words_of(name), *words, "-c", "-x", "ir", code, "-o", f"{stem}.o")
    return stem
