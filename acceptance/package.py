#!/usr/bin/env python3
"""Tries the Debian package of a release: it is made twice, judged by lintian, installed in a clean root, used there for README's walk, and removed.

acceptance/package.py PROGRAM [--debootstrap] makes the package of this clone's commit with PROGRAM in it. The clean root has those packages of this machine
that every system has, and Python; with --debootstrap it comes from the distribution. If something isn't available (lintian, dpkg, the right to change
root), what needs it isn't tried, and a line says so. The last line says how many checks passed.
"""
import gzip
import hashlib
import os
import re
import shutil
import subprocess
import sys
import tempfile

import keys
import places  # noqa: F401
import walk

TOP = walk.TOP
sys.dont_write_bytecode = True
sys.path.insert(0, os.path.join(TOP, "tools", "office"))

import release  # noqa: E402 (the one in office/)
from ask import Refusal  # noqa: E402

KIT = "a kit of that time"
PLACE = "/root/walk"
PATH = "/usr/sbin:/usr/bin:/sbin:/bin"
GIVEN = {"PATH": PATH, "HOME": "/root", "LANG": "C.UTF-8", "DEBIAN_FRONTEND": "noninteractive"}
ROOM = (
    "dev", "proc", "tmp", "root", "var/lib/dpkg/info", "var/lib/dpkg/updates", "var/lib/dpkg/triggers", "var/cache/apt/archives/partial",
    "var/lib/apt/lists/partial", "var/log/apt",
)
MACHINE_PACKAGES = ("apt", "python3", "libc6", "libgcc-s1", "coreutils", "bash", "findutils", "grep", "sed", "gawk", "mawk", "diffutils")


def ran(*words, **given):
    done = subprocess.run(words, stdin=subprocess.DEVNULL, capture_output=True, text=True, **given)
    return done.returncode, done.stdout, done.stderr


def not_tried(what, why):
    print(f"acceptance/package.py: NOT TRIED: {what}: {why}")


# ---- a clean root

def installed():
    """For each package of this machine: whether every system has it, what it depends on, and its other names."""
    form = "${Package}\t${Essential}\t${Pre-Depends}, ${Depends}\t${Provides}\n"
    rows = [line.split("\t") for line in ran("dpkg-query", "--show", f"--showformat={form}")[1].splitlines()]
    return {row[0]: row[1:] for row in rows}


def names_in(relation):
    """For each dependency of a package, the packages that would satisfy it."""
    return [[re.split(r"[\s(:\[]", name.strip())[0] for name in part.split("|")] for part in relation.split(",") if part.strip()]


def needed(packages):
    """The packages that every system has, those that README needs, and everything that these depend on."""
    by_name = {name: name for name in packages}
    for name, (_, _, provides) in packages.items():
        for also, in names_in(provides):
            by_name.setdefault(also, name)
    rest = [name for name, (essential, _, _) in packages.items() if essential == "yes"] + [name for name in MACHINE_PACKAGES if name in packages]
    found = set()
    while rest:
        name = rest.pop()
        if name not in found:
            found.add(name)
            rest += [next(by_name[one] for one in each if one in by_name) for each in names_in(packages[name][1]) if any(one in by_name for one in each)]
    return sorted(found)


def copy_packages(root):
    """Makes a root with some packages of this machine, and with dpkg's own records of them."""
    names = needed(installed())
    for link in ("bin", "sbin", "lib", "lib32", "lib64", "libx32"):
        if os.path.islink(f"/{link}"):
            os.makedirs(os.path.join(root, os.readlink(f"/{link}").lstrip("/")), exist_ok=True)
            os.symlink(os.readlink(f"/{link}"), os.path.join(root, link))
    kept = ("/usr/share/doc/", "/usr/share/man/", "/usr/share/locale/", "/usr/share/info/")
    files = {line for line in ran("dpkg-query", "--listfiles", *names)[1].splitlines() if line.startswith("/") and not line.startswith(kept)}
    files |= {os.path.join(folder, name) for folder, _, found in os.walk("/etc/alternatives") for name in found}
    files |= {os.path.realpath(f"/etc/alternatives/{name}") for name in os.listdir("/etc/alternatives")} & files
    files |= {"/etc/passwd", "/etc/group", "/etc/ld.so.conf", "/usr/bin/awk"}
    there = sorted(path for path in files if os.path.lexists(path) and (os.path.islink(path) or not os.path.isdir(path)))
    listed = "\0".join(path.lstrip("/") for path in there).encode()
    packed = subprocess.run(["tar", "-C", "/", "--null", "-T", "-", "-cf", "-"], input=listed, capture_output=True)
    subprocess.run(["tar", "-C", root, "--keep-directory-symlink", "-xf", "-"], input=packed.stdout, check=True, capture_output=True)
    for folder in ROOM:
        os.makedirs(os.path.join(root, folder), exist_ok=True)
    with open(os.path.join(root, "var/lib/dpkg/status"), "w") as file:
        file.write("\n".join(ran("dpkg-query", "--status", name)[1] for name in names))
    for name in os.listdir("/var/lib/dpkg/info"):
        if name.partition(".")[0].partition(":")[0] in names or name.rpartition(".")[0].partition(":")[0] in names:
            shutil.copy(os.path.join("/var/lib/dpkg/info", name), os.path.join(root, "var/lib/dpkg/info"))
    for name in ("null", "zero", "full", "urandom"):
        stat = os.stat(f"/dev/{name}")
        os.mknod(os.path.join(root, "dev", name), stat.st_mode, stat.st_rdev)
        os.chmod(os.path.join(root, "dev", name), 0o666)
    ran("chroot", root, "ldconfig", env=GIVEN)


def clean_root(root, is_from_afar):
    """Makes a clean root; returns why that isn't possible, or an empty text."""
    if os.geteuid() != 0:
        return "this needs root"
    if is_from_afar:
        status, _, err = ran("debootstrap", "--variant=minbase", "--include=python3", "stable", root)
        return f"debootstrap ended with status {status}: {err.strip()[-200:]}" if status else ""
    try:
        copy_packages(root)
    except (OSError, subprocess.CalledProcessError) as fault:
        return str(fault)
    status, _, err = ran("chroot", root, "bash", "-c", "apt-get --version && python3 --version && awk 1 /dev/null", env=GIVEN)
    return f"its programs don't run: {err.strip()}" if status else ""


# ---- what is tried

def as_made(parts, again):
    yield "made twice it has the same bytes", parts == again
    version = open(os.path.join(TOP, "VERSION")).read().strip()
    yield "the version is a semantic one", re.fullmatch(r"\d+\.\d+\.\d+", version) is not None
    yield "its name has the version", parts[-1][0] == f"raire_{version}_amd64.deb"
    with open(os.path.join(TOP, "CHANGELOG.md")) as file:
        yield "the changes begin with this version", re.search("^## (.*)$", file.read(), re.MULTILINE)[1] == version


def as_listed(path, tree, folder):
    """The list of digests has each file of the package once, and the package needs the same Python as its tools."""
    control = os.path.join(folder, "control")
    yield "its control files are unpacked", ran("dpkg-deb", "--control", path, control)[0] == 0
    with open(os.path.join(control, "md5sums")) as file:
        listed = dict(reversed(line.rstrip("\n").split("  ", 1)) for line in file)
    there = [os.path.join(place, name) for place, _, names in os.walk(tree) for name in names]
    digests = {os.path.relpath(each, tree): hashlib.md5(read(each), usedforsecurity=False).hexdigest() for each in there if not os.path.islink(each)}
    yield "md5sums has each file", listed == digests
    yield "control files can be read by all", all(os.stat(os.path.join(control, name)).st_mode & 0o777 == 0o644 for name in os.listdir(control))
    depends = ran("dpkg-deb", "--field", path, "Depends")[1].strip()
    yield f"it depends on Python: {depends}", re.search(r"(^|, )python3 \(>= 3\.11\)(,|$)", depends) is not None
    first_lines = {each: read(each)[:40].partition(b"\n")[0] for each in there if not os.path.islink(each) and os.access(each, os.X_OK)}
    others = {os.path.relpath(each, tree): line for each, line in first_lines.items() if b"python" in line and line != b"#!/usr/bin/python3"}
    yield f"Python is the distribution's: {others}", not others


def read(path):
    with open(path, "rb") as file:
        return file.read()


def as_judged(path):
    if not shutil.which("lintian"):
        not_tried("lintian", "it isn't here")
        return
    status, out, err = ran("lintian", "--allow-root", "--no-tag-display-limit", path)
    yield f"lintian finds no error: {out}{err}", status == 0 and not re.search("^E:", out, re.MULTILINE)


def man_pages(tree):
    folder = os.path.join(tree, "usr/share/man/man1")
    for name in sorted(os.listdir(os.path.join(TOP, "docs", "help"))):
        name = name.removesuffix(".txt")
        if name == release.NAME:
            continue
        path = os.path.join(folder, "raire.1.gz" if name == "raire" else f"raire-{name}.1.gz")
        yield f"{name} has a man page", os.path.exists(path)
        if shutil.which("groff"):
            shown = subprocess.run(["groff", "-K", "utf8", "-man", "-Tutf8", "-ww", "-rLL=200n"], input=gzip.open(path).read(), capture_output=True)
            text = re.sub("\x1b\\[[0-9;]*m|.\x08", "", shown.stdout.decode())
            with open(os.path.join(TOP, "docs", "help", f"{name}.txt")) as file:
                wanted = [line.split() for line in file.read().replace("./raire", "raire").splitlines() if line.strip()]
            got = [line.split() for line in text.replace("‐", "-").replace("−", "-").splitlines()]
            missing = [line for line in wanted if line not in got]
            yield f"the man page of {name} has each line of its help: {missing[:3]} {shown.stderr.decode()}", not missing and not shown.stderr


def completed(script, *words):
    """What bash offers for the last of the words."""
    given = f'COMP_WORDS=({" ".join(map(repr, words))}); COMP_CWORD={len(words) - 1}'
    return set(ran("bash", "-c", f'. "{script}"; {given}; compopt() {{ :; }}; _raire; printf "%s\\n" "${{COMPREPLY[@]}}"')[1].split())


def completions(tree):
    script = os.path.join(tree, "usr/share/bash-completion/completions/raire")
    yield "bash: commands", completed(script, "raire", "s") >= {"search", "sample", "show", "state"}
    yield "bash: options of a command", completed(script, "raire", "search", "--n") == {"--nodes"}
    yield "bash: pages of help", completed(script, "raire", "help", "che") == {"check"}
    yield "bash: files", f"{TOP}/README.md" in completed(script, "raire", "search", f"{TOP}/READ")
    yield from typed(["bash", "--norc", "--noprofile", "-i"], f'. "{script}"')
    if not shutil.which("zsh"):
        not_tried("the completion of zsh", "zsh isn't here")
        return
    folder = os.path.join(tree, "usr/share/zsh/vendor-completions")
    yield from typed(["zsh", "-f", "-i"], f'fpath=("{folder}" $fpath); autoload -Uz compinit; compinit -u -D')


TYPED = {
    "raire sea": "raire search", "./raire sta": "./raire state", "raire search --n": "raire search --nodes", "raire state --pro": "raire state --profile",
    "raire help che": "raire help check", "raire search READ": "raire search README.md", "raire versi": "raire version",
}


def typed(words, line):
    """What a TAB makes of lines, in a shell at a terminal, in README's folder."""
    with keys.Shell(words, [line], TOP) as shell:
        for begun, wanted in TYPED.items():
            got = shell.completed(begun)
            yield f"{words[0]}: {begun} and a TAB: {got}", got.rstrip() == wanted


def in_root(root, *words, place="/"):
    return ran("chroot", root, "bash", "-c", 'cd "$0" && exec "$@"', place, *words, env=GIVEN)


def files_of(root):
    """All files except those of the system itself and apt's own records."""
    apart = tuple(os.path.join(root, name) for name in ("proc", "var/lib/dpkg", "var/lib/apt", "var/cache", "var/log", "tmp", "dev", "root"))
    return {os.path.join(folder, name) for folder, folders, names in os.walk(root) for name in folders + names if not folder.startswith(apart)}


def used(root, path, digest):
    """Installs the package with apt, goes through README, and removes the package."""
    before = files_of(root)
    shutil.copy(path, os.path.join(root, "root", "raire.deb"))
    done = in_root(root, "apt-get", "install", "-y", "--no-install-recommends", "./raire.deb", place="/root")
    yield f"it is installed: {done}", done[0] == 0
    yield "there is no rt", in_root(root, "bash", "-c", "type rt")[0] != 0
    status, out, err = in_root(root, "raire", "version")
    wanted = f"raire {release.contents(release.Commit(), b'', KIT)[1]}, commit {release.Commit().short}, released; {KIT}\n"
    yield f"its version: {out}{err}", (status, out, err) == (0, wanted, "")
    yield "the program is the one that was released", in_root(root, "sha256sum", "/usr/lib/raire/crates/raire/out/raire")[1].split()[0] == digest
    place = os.path.join(root, PLACE.lstrip("/"))
    os.makedirs(place)
    os.symlink("/usr/bin/raire", os.path.join(place, "raire"))
    shutil.copytree(os.path.join(root, "usr/share/doc/raire/examples"), os.path.join(place, "examples"))
    os.symlink("/usr/lib/raire/plain", os.path.join(place, "plain"))
    with open(os.path.join(root, "usr/share/doc/raire/README.md")) as file:
        shown = list(walk.shown(file.read()))
    printed = walk.printed_by([command for command, _ in shown], PLACE, GIVEN, root)
    for (command, wanted), got in zip(shown, printed):
        yield f"README: {command}\nwanted {wanted}got {got}", walk.is_as_shown(got, wanted) or any(told in got for told in walk.UNTRIED)
    yield "README: all were run", 0 < len(shown) <= len(printed)
    for name in ("raire", "search", "state"):
        yield f"raire help {name}", in_root(root, "raire", "help", name)[0] == 0
    yield "a command that needs the repository says so", in_root(root, "raire", "release")[0] == 1
    done = in_root(root, "apt-get", "purge", "-y", "raire")
    yield f"it is removed: {done}", done[0] == 0
    its_own = ("/etc/shells", "/var/lib/shells.state")  # these are the system's, as are the folders of Python
    left = {path for path in files_of(root) - before if "/usr/lib/python3" not in path and not path.endswith(its_own)}
    yield f"nothing of it is left: {sorted(left)[:5]}", not left


def cases(program, folder, is_from_afar):
    with open(program, "rb") as file:
        data = file.read()
    parts = release.made(release.Commit(), data, KIT)
    if len(parts) < 2:
        not_tried("the package", "dpkg-deb isn't here")
        return
    yield from as_made(parts, release.made(release.Commit(), data, KIT))
    path, tree, root = (os.path.join(folder, name) for name in (parts[-1][0], "tree", "root"))
    with open(path, "wb") as file:
        file.write(parts[-1][1])
    yield "it is unpacked", ran("dpkg-deb", "--extract", path, tree)[0] == 0
    yield from as_listed(path, tree, folder)
    yield from as_judged(path)
    yield from man_pages(tree)
    yield from completions(tree)
    os.mkdir(root)
    os.chmod(root, 0o755)
    why = clean_root(root, is_from_afar)
    if why:
        not_tried("the package in a clean root", why)
        return
    yield from used(root, path, hashlib.sha256(data).hexdigest())


def main():
    program = os.path.abspath(sys.argv[1])
    try:
        release.Commit()
    except Refusal as refusal:
        not_tried("the package", refusal.text.strip())
        return
    tried = failed = 0
    with tempfile.TemporaryDirectory() as folder:
        os.chmod(folder, 0o755)
        for shows, holds in cases(program, folder, "--debootstrap" in sys.argv[2:]):
            tried += 1
            if not holds:
                failed += 1
                print(f"package: {shows}: not so")
    print(f"{tried - failed} things of the Debian package as they should be, {failed} not")
    sys.exit(1 if failed else 0)


if __name__ == "__main__":
    main()
