"""Makes the wheel of the Python module: its package, with the shared libraries inside. check/release uses it.

A wheel tells the oldest C library that it runs with. The pager that `make` links wants names in the versions that the C
library of this system has, though older ones have the same names. So it is linked anew here, with stubs: libraries
without code that have these names in the newest versions that OLDEST had, in the library where they were then. What a
newer one alone has is in older_glibc.c, or the pager can do without.
"""

import ast
import base64
import hashlib
import os
import re
import subprocess
import tempfile
import zipfile

import notices
import runner
from runner import CC, TOP, Failed, text_of, write

# The version 2.N of the C library, of 2012, and what pip calls wheels for it, also before it knew of such numbers.
OLDEST, OLD_NAME = 17, "manylinux2014"
PACKAGE = os.path.join(TOP, "bindings", "python", "hojzmated")
LIBC, LOADER, THREADS, LOADING = "libc.so.6", "ld-linux-x86-64.so.2", "libpthread.so.0", "libdl.so.2"
LOADS = {"dladdr", "dlclose", "dlerror", "dlopen", "dlsym"}
METADATA = """Metadata-Version: 2.1
Name: hojzmated
Version: {version}
Summary: The buffer pool Hojzmated, to try frames and K with, and to use the pages of a file
Requires-Python: >=3.8
Classifier: Operating System :: POSIX :: Linux
Classifier: Private :: Do Not Upload
Classifier: Programming Language :: Python :: 3 :: Only
Classifier: Topic :: Database :: Database Engines/Servers
Classifier: Typing :: Typed
License-File: NOTICES
Description-Content-Type: text/plain

It wants a processor of {processor}.

{text}
"""


def run(*words, cwd):
    """Runs a command in a folder, and returns what it printed. Failed where its status is not 0."""
    try:
        ran = runner.ended(words, 600, cwd=cwd)
    except (OSError, subprocess.TimeoutExpired) as why:
        raise Failed(f"{words[0]}: {why}") from None
    if ran.returncode:
        raise Failed(f"{' '.join(words)}: status {ran.returncode}\n{ran.stdout[-4000:]}")
    return ran.stdout


def read(path):
    with open(path, "rb") as file:
        return file.read()


def newest_wanted(libraries):
    """The newest version 2.N of the C library of which these want a name."""
    return max(int(it) for text in libraries for it in re.findall(rb"GLIBC_2\.(\d+)", text))


# ---- The pager, for older C libraries

def dotted(version):
    return ".".join(map(str, version))


def versions_of(library, folder):
    """The versions 2.A or 2.A.B, as tuples, in which a library of this system has each of its names."""
    path = run(CC, f"-print-file-name={library}", cwd=folder).strip()
    found = {}
    for name, version in re.findall(r" \d+ (\w+)@@?GLIBC_([\d.]+)$", run("readelf", "-sWD", path, cwd=folder),
                                    re.MULTILINE):
        found.setdefault(name, []).append(tuple(map(int, version.split("."))))
    return found


def wanted_by(names, folder):
    """The names that objects want of others, and for each whether they can do without."""
    found = {}
    for name in names:
        for letter, wanted in re.findall(r"^ +([Uwv]) (\w+)$", run("nm", "-u", name, cwd=folder), re.MULTILINE):
            found[wanted] = found.get(wanted, True) and letter != "U"
    return found


def place_of(name, is_of_loader):
    """The library that had a name in OLDEST."""
    if is_of_loader:
        return LOADER
    if re.match("pthread_|sem_", name):
        return THREADS
    return LOADING if name in LOADS else LIBC


def stubs_for(wanted, own, folder):
    """The versions of the names that are wanted, for each library that is to be a stub. Failed where OLDEST has not one
    that is needed."""
    of_loader, *others = (versions_of(it, folder) for it in (LOADER, LIBC, THREADS, LOADING))
    stubs = {}
    for name in sorted(set(wanted) - own):
        some = [version for it in (of_loader, *others) for version in it.get(name, [])]
        old = [version for version in some if version <= (2, OLDEST)]
        if old:
            stubs.setdefault(place_of(name, name in of_loader), {})[name] = max(old)
        elif some and not wanted[name]:
            raise Failed(f"the pager wants {name} of glibc {dotted(min(some))}: older_glibc.c has to have it")
    return stubs


def make_stub(library, names, folder):
    """Makes a library without code that has these names, each in its version."""
    write("".join(f"void {name}(void) {{}}\n" for name in names), folder, "stub.c")
    nodes = {}
    for name, version in names.items():
        nodes.setdefault(version, []).append(f"{name};")
    write("".join(f"GLIBC_{dotted(it)} {{ {' '.join(nodes[it])} }};\n" for it in sorted(nodes)), folder, "stub.map")
    run(CC, "-shared", "-nostdlib", "-ffreestanding", "-w", f"-Wl,-soname,{library}", "-Wl,--version-script=stub.map",
        "stub.c", "-o", library, cwd=folder)


def older_pager(pager, soname):
    """The shared library of the pager that `make` left as one object, for the C library OLDEST and newer ones."""
    with tempfile.TemporaryDirectory() as folder:
        write(text_of("check", "older_glibc.c"), folder, "older.c")
        run(CC, "-O2", "-fPIC", "-Wall", "-Werror", "-c", "older.c", cwd=folder)
        os.symlink(os.path.abspath(pager), os.path.join(folder, "pager.o"))
        own = set(re.findall(r" T (\w+)$", run("nm", "older.o", cwd=folder), re.MULTILINE))
        stubs = stubs_for(wanted_by(["pager.o", "older.o"], folder), own, folder)
        for library, names in stubs.items():
            make_stub(library, names, folder)
        run(CC, "-shared", "-nodefaultlibs", f"-Wl,-soname,{soname}", "-Wl,--gc-sections", "-Wl,-z,defs", "pager.o",
            "older.o", *stubs, "-lgcc_s", "-lgcc", "-o", soname, cwd=folder)
        return read(os.path.join(folder, soname))


# ---- The wheel

def tags_of(libraries):
    """The platforms of the wheel."""
    newest = newest_wanted(libraries)
    if newest > OLDEST:
        raise Failed(f"the libraries of the wheel want glibc 2.{newest}, and are to do with 2.{OLDEST}")
    return [f"manylinux_2_{OLDEST}_x86_64", f"{OLD_NAME}_x86_64"]


def made(version, processor, prefix, pager, to):
    """Makes the wheel of the libraries that are installed in a prefix, and of the object of the pager, in a folder.
    Returns its path."""
    soname = os.readlink(os.path.join(prefix, "lib", "libhojzmated_pager.so"))
    libraries = {"hojzmated/libs/libhojzmated.so": read(os.path.join(prefix, "lib", "libhojzmated.so")),
                 "hojzmated/libs/libhojzmated_pager.so": older_pager(pager, soname)}
    tags = tags_of(libraries.values())
    info = f"hojzmated-{version}.dist-info"
    sources = {name: read(os.path.join(PACKAGE, name)) for name in sorted(os.listdir(PACKAGE))
               if name.endswith(".py") or name == "py.typed"}
    text = ast.get_docstring(ast.parse(sources["__init__.py"]))
    files = {
        **{f"hojzmated/{name}": text for name, text in sources.items()},
        **libraries,
        f"{info}/NOTICES": notices.of("the libraries of this wheel", "hojzmated_c", has_rust=True).encode(),
        f"{info}/METADATA": METADATA.format(version=version, processor=processor, text=text).encode(),
        f"{info}/WHEEL": ("Wheel-Version: 1.0\nGenerator: check/release\nRoot-Is-Purelib: false\n"
                          + "".join(f"Tag: py3-none-{tag}\n" for tag in tags)).encode(),
    }
    sums = {name: base64.urlsafe_b64encode(hashlib.sha256(text).digest()).rstrip(b"=") for name, text in files.items()}
    record = [f"{name},sha256={sums[name].decode()},{len(text)}" for name, text in files.items()]
    files[f"{info}/RECORD"] = "\n".join([*record, f"{info}/RECORD,,", ""]).encode()
    os.makedirs(to, exist_ok=True)
    path = os.path.join(to, f"hojzmated-{version}-py3-none-{'.'.join(tags)}.whl")
    with zipfile.ZipFile(path, "w") as archive:
        for name, text in files.items():
            entry = zipfile.ZipInfo(name)  # of 1980, and the same at each time
            entry.external_attr, entry.compress_type = 0o644 << 16, zipfile.ZIP_DEFLATED
            archive.writestr(entry, text)
    return path
