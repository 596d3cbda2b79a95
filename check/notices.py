"""The licences of what others wrote and is in the archive, the wheel and the crate as machine code.

Many crates of the kit are ports of Rust crates, whose licences ask that their text goes along. It lies in the folders
of the kit's crates. Rust's own library is in the pager, and its texts lie where rustc is installed.
"""

import glob
import os
import re
import tempfile

import runner
from runner import Failed, text_of, write

KIT = os.environ.get("RATTLE", "/opt/rattle")
# The kit's own crates, which are ports of no crate, and come without a licence.
OWN = {"anyhow", "atomic_table", "core", "io", "libc", "os", "std", "std_alloc", "std_collections", "std_heap", "std_io"}
HEAD = """Machine code of the libraries below is in {what}. The licence of each follows as it came with the library.

Hojzmated's own licence is not chosen yet by its owner. This file gives no right to use Hojzmated.

The code also has these libraries of the Rattle kit's own, which came without a licence: {own}.
"""


def of_kit(crates, kit=KIT):
    """The crates of the kit that these crates of the repository stand on, in the order of the alphabet."""
    listed = re.findall(r"^(\w+)[^:#]*:(.*)$", text_of("crates.txt"), re.MULTILINE)
    below, found, left = {name: used.split() for name, used in listed}, set(), [*crates, "std"]
    while left:
        name = left.pop()
        if name not in found:
            found.add(name)
            left += below[name] if name in below else used_by(name, kit)
    return sorted(found - set(below))


def used_by(name, kit):
    """The crates of the kit that one of them uses."""
    try:
        text = text_of(kit, "rlibs", f"{name}.rlib", "format")
    except OSError:
        raise Failed(f"the kit has no crate {name}") from None
    return re.findall(r"^dep (\w+)$", text, re.MULTILINE)


def licences_in(folder):
    """The paths of the licences in a folder."""
    return sorted(path for path in glob.glob(os.path.join(glob.escape(folder), "*"))
                  if re.match("licen[cs]e|copying|notice", os.path.basename(path), re.IGNORECASE))


def of_rust():
    """The paths of the notices of Rust's library."""
    try:
        root = runner.ended(["rustc", "--print", "sysroot"]).stdout.strip()
    except OSError:
        raise Failed("no rustc, which tells where the notices of its library are") from None
    folder = os.path.join(root, "share", "doc", "rust")
    paths = [os.path.join(folder, name) for name in ("COPYRIGHT-library.html", "licenses/MIT.txt", "licenses/Apache-2.0.txt")]
    for path in paths:
        if not os.path.exists(path):
            raise Failed(f"{path} is not there: `rustup component add rust-docs`")
    return paths


def of(what, *crates, has_rust, kit=KIT):
    """The notices of what has machine code of these crates. Failed where a crate of the kit is a port and has no
    licence, or is its own and has one."""
    names = of_kit(crates, kit)
    found = {name: licences_in(os.path.join(kit, "rattle", name)) for name in names}
    wrong = [name for name in names if (name in OWN) == bool(found[name])]
    if wrong:
        raise Failed(f"licences of the kit's crates {', '.join(wrong)}: a port has one, and check/notices.py names the others")
    if has_rust:
        found["Rust's library"] = of_rust()
    texts = [f"{'=' * 78}\n{name}: {os.path.basename(path)}\n\n{text_of(path).strip()}\n"
             for name, paths in found.items() for path in paths]
    return "\n".join([HEAD.format(what=what, own=", ".join(name for name in names if name in OWN)), *texts])


def of_library():
    """The notices of the proved library for C, which is in the crate hojzmated-sys."""
    return of("the library in this folder", "hojzmated_c", has_rust=False)


def refused(kit, name):
    """Whether the notices of a kit fail for this crate."""
    try:
        of("nothing", "hojzmated_c", has_rust=False, kit=kit)
    except Failed as why:
        return f" {name}:" in str(why)
    return False


def tried():
    """Tries kits of which a port has no licence, and a crate of its own has one. Returns how many passed and failed."""
    with tempfile.TemporaryDirectory(prefix="kit-") as kit:
        for name in of_kit(["hojzmated_c"]):
            for folder in ("rlibs", f"{name}.rlib"), ("rattle", name):
                os.makedirs(os.path.join(kit, *folder))
            write("", kit, "rlibs", f"{name}.rlib", "format")
            if name not in OWN:
                write("a licence", kit, "rattle", name, "LICENSE")
        is_whole = not refused(kit, "slab") and not refused(kit, "std")
        write("a licence", kit, "rattle", "std", "LICENSE")
        is_told = is_whole and refused(kit, "std")
        os.remove(os.path.join(kit, "rattle", "std", "LICENSE"))
        os.remove(os.path.join(kit, "rattle", "slab", "LICENSE"))
        is_told = is_told and refused(kit, "slab")
    print(f"{'passed' if is_told else 'failed'}: a licence that is missing, or not known of, fails", flush=True)
    return int(is_told), int(not is_told)
