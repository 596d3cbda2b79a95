"""Tries the archive of check/release where there is no kit: in a new root, made by `unshare`, that has the system's
folders alone, without /opt, /usr/local, homes, network and environment. Of Rust there is the toolchain alone.

Each step is a script of the shell, run where the archive was unpacked. It wants unshare of util-linux, and to be root
or a user who may make namespaces: else all steps are left out, which is said.
"""

import os
import shutil
import subprocess
import tempfile

import runner

SECONDS = 900
# What is bound from the system into the new root.
SYSTEM = ["/usr", "/etc/alternatives", "/etc/groff", "/etc/ld.so.cache", "/dev/null", "/dev/zero", "/dev/urandom"]
ENTER = """set -e
PATH=$PATH:/usr/sbin:/sbin
mount --make-rprivate /
mount -t tmpfs none "$1"
cd "$1"
mkdir -p dev etc proc tmp home/user rust
for link in bin sbin lib lib64; do
    if [ -L /$link ]; then ln -s usr/$link $link; elif [ -d /$link ]; then mkdir $link; mount --rbind /$link $link; fi
done
for path in {system}; do
    [ -e $path ] || continue
    if [ -d $path ]; then mkdir -p .$path; else : > .$path; fi
    mount --rbind $path .$path
done
mount -t tmpfs none usr/local
[ -z "$3" ] || mount --rbind "$3" rust
mount -t proc none proc
mkdir home/user/given
mount --rbind "$2" home/user/given
cd home/user
tar -xzf given/*.tar.gz
exec chroot "$1" /usr/bin/env -i HOME=/home/user PATH=/usr/bin:/bin sh -ec 'cd /home/user/'$4'; . ../given/step'
"""
# What a step prints last that wants a tool which is not there.
LACKS = "lacks: "
WANTS = """for tool in {tools}; do
    command -v $tool > /dev/null || {{ echo "lacks: no $tool"; exit 3; }}
done
"""
# The name of each step, the tools that it wants, and what it does.
STEPS = [
    ("the root has no kit", "", """
! command -v rt && ! command -v rattle
[ ! -e /opt ] && [ ! -e /root ] && [ -z "$(ls /usr/local)" ]
[ -z "$(env | grep -v -e ^HOME=/home/user$ -e ^PATH=/usr/bin:/bin$ -e ^PWD= -e ^OLDPWD= -e ^_=)" ]
! grep -q '[0-9]' /proc/net/route
"""),
    ("all files have their sums", "sha256sum", """
sha256sum --check --quiet SHA256SUMS
[ "$(find . -type f | wc -l)" = "$(( $(wc -l < SHA256SUMS) + 1 ))" ]
grep -q '^Proved with: rattle-kit' PROOF
"""),
    ("bpool run of the worked trace", "", """
cd examples/trace
status=0
../../bin/bpool $(cat args) < stdin > /tmp/printed || status=$?
[ $status = 1 ]
cmp stdout /tmp/printed
../../bin/bpool explain 12 | grep -q 'the log must first be durable'
"""),
    ("the scenarios", "", """
bin/scenarios < examples/scenarios/stdin > /tmp/printed
cmp examples/scenarios/stdout /tmp/printed
"""),
    ("the notices", "", """
for name in clap csv hex rtrb slab; do
    grep -q "^$name: LICENSE" NOTICES
done
grep -q "^Rust's library: MIT.txt" NOTICES
grep -q '^slab: LICENSE' rust/sys/lib/NOTICES
"""),
    ("man pages", "man", """
for page in share/man/man1/*.1; do
    man --warnings -l $page > /tmp/page 2> /tmp/said
    [ ! -s /tmp/said ] || { cat /tmp/said; exit 1; }
done
man -l share/man/man1/bpool-run.1 | grep -q -e '--page-size <N>'
"""),
    ("completion for bash", "bash", """
bash -ec '. share/bash-completion/completions/bpool
complete_to() { COMP_WORDS=("$@") COMP_CWORD=$(($# - 1)) COMPREPLY=(); _bpool; echo "${COMPREPLY[*]}"; }
[ "$(complete_to bpool mi)" = migrate ]
[ "$(complete_to bpool run --fo)" = --format ]
[ "$(complete_to bpool run --order f)" = free ]
[ "$(complete_to bpool sweep --k "")" = "" ]
[ "$(complete_to bpool run README)" = README.md ]'
"""),
    ("completion for zsh", "zsh", "zsh -n share/zsh/site-functions/_bpool\n"),
    ("completion for fish", "fish", "fish -n share/fish/vendor_completions.d/bpool.fish\n"),
    ("least.c and least_pager.c", "cc pkg-config", """
export PKG_CONFIG_PATH=$PWD/lib/pkgconfig LD_LIBRARY_PATH=$PWD/lib
cd /tmp
for name in hojzmated hojzmated_pager; do
    case $name in hojzmated) least=least says='done: ' ;; *) least=least_pager says= ;; esac
    cc ~/hojzmated-*/examples/c/$least.c $(pkg-config --cflags --libs $name) -lpthread -o $least
    count=0
    for run in 1 2; do
        printed=$(./$least)
        case $least in least) count=$run ;; *) count=$((4 * run)) ;; esac
        [ "$printed" = "${says}the last page counts $count" ] || { echo "it printed $printed"; exit 1; }
    done
done
cc ~/hojzmated-*/examples/c/least.c -I$OLDPWD/include $OLDPWD/lib/libhojzmated.a -o linked
LD_LIBRARY_PATH= ./linked | grep -q 'counts 3$'
cc ~/hojzmated-*/examples/c/engine.c -I$OLDPWD/include $OLDPWD/lib/libhojzmated_pager.a -lpthread -lm -ldl -o engine
LD_LIBRARY_PATH= ./engine . 0.2 | grep -q '^ready$'
"""),
    ("the crate's first examples", "cc /rust/bin/cargo", """
export PATH=$PATH:/rust/bin
crate=$PWD/rust
mkdir -p /tmp/mine/src
cd /tmp/mine
cp $crate/examples/least.rs src/main.rs
printf '[package]\\nname = "mine"\\nversion = "0.1.0"\\nedition = "2024"\\n\\n' > Cargo.toml
printf '[dependencies]\\nhojzmated = { path = "%s" }\\n' $crate >> Cargo.toml
cargo build --quiet
for run in 1 2; do
    [ "$(target/debug/mine)" = "the last page counts $run" ]
done
cd $crate
cargo build --quiet --example counters
cd /tmp
[ "$($crate/target/debug/examples/counters)" = "the last page counts 4" ]
"""),
    ("the wheel's first examples", "python3 pip3", """
pip3 install --quiet --no-cache-dir --disable-pip-version-check --target /tmp/site python/hojzmated-*.whl
cd /tmp
grep -q '^slab: LICENSE' site/hojzmated-*.dist-info/NOTICES
PYTHONPATH=/tmp/site python3 -Bc 'import doctest, hojzmated, sys
came = doctest.testmod(hojzmated)
print(came, hojzmated.version(), hojzmated.__file__)
sys.exit(came.failed > 0 or came.attempted < 8 or not hojzmated.__file__.startswith("/tmp/site/"))'
"""),
]


def entering():
    """The words that run a command in namespaces of its own, or None where that is refused."""
    for words in (["unshare", "--kill-child", "--mount", "--pid", "--fork", "--net"],
                  ["unshare", "--kill-child", "--map-root-user", "--mount", "--pid", "--fork", "--net"]):
        if shutil.which("unshare") and runner.ended([*words, "mount", "--make-rprivate", "/"]).returncode == 0:
            return words
    return None


def toolchain():
    """The folder of the Rust toolchain, or nothing."""
    if not shutil.which("rustc"):
        return ""
    return runner.ended(["rustc", "--print", "sysroot"]).stdout.strip()


def tried(name, archive):
    """Runs each step, each in a new root in which the archive is unpacked anew. Returns how many passed and failed."""
    words, passed, failed, left = entering(), 0, 0, []
    if words is None:
        print("left out: a root without the kit (unshare makes no namespaces here)")
        return 0, 0
    script, rust = ENTER.replace("{system}", " ".join(SYSTEM)), toolchain()
    for step, tools, text in STEPS:
        with tempfile.TemporaryDirectory(prefix="root-") as folder:
            root, given = os.path.join(folder, "root"), os.path.join(folder, "given")
            os.mkdir(root)
            os.mkdir(given)
            shutil.copy(archive, given)
            runner.write((WANTS.format(tools=tools) if tools else "") + text, given, "step")
            try:
                ran = runner.ended([*words, "sh", "-c", script, "sh", root, given, rust, name], SECONDS)
            except subprocess.TimeoutExpired:
                print(f"failed: {step}: not done in {SECONDS} s", flush=True)
                failed += 1
                continue
        last = (ran.stdout.strip().split("\n") or [""])[-1]
        if ran.returncode == 0:
            passed += 1
            print(f"passed: {step}", flush=True)
        elif ran.returncode == 3 and last.startswith(LACKS):
            left.append(f"{step} ({last.removeprefix(LACKS)})")
        else:
            failed += 1
            print(f"failed: {step}: status {ran.returncode}\n{ran.stdout.strip()[-2000:]}", flush=True)
    if left:
        print(f"left out: {', '.join(left)}")
    return passed, failed
