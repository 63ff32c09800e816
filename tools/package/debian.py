"""Makes a Debian package of a release: the program, the tools, man pages, completions and the docs."""
import email.utils
import gzip
import hashlib
import os
import re
import shutil
import subprocess
import tempfile
import time

import completions
import man

NAME, MACHINE = "raire", "amd64"
HOME, DOC, MAN = f"usr/lib/{NAME}", f"usr/share/doc/{NAME}", "usr/share/man/man1"
PROGRAM = "crates/raire/out/raire"
RUNS = ("raire", "VERSION", "RELEASE", "crates/", "tools/", "plain/", "docs/")  # what is installed to be run, or to be read by what runs
SHOWN = {"README.md": "README.md", "CHANGELOG.md": "CHANGELOG.md", "RELEASE.md": "RELEASE.md", "CITATION.cff": "CITATION.cff"}
LINKS = {f"usr/bin/{NAME}": f"../lib/{NAME}/{NAME}", f"{DOC}/docs": f"../../../lib/{NAME}/docs"}
PYTHON = "python3 (>= 3.11)"  # as in README; its libraries are only recommended, since each tool says which one it lacks
MAINTAINER = "RAIRE audit suite maintainers <maintainers@users.noreply.keqsadow.example>"

CONTROL = """\
Package: {name}
Version: {version}
Architecture: {machine}
Maintainer: {maintainer}
Installed-Size: {size}
Depends: {depends}
Recommends: python3-jinja2, python3-ijson, python3-openpyxl, python3-flask, python3-waitress, snakemake
Section: utils
Priority: optional
Description: audits contests of instant-runoff voting, by a proved program
 Finds the assertions that confirm the winner of a contest of instant-runoff
 (ranked-choice) voting, plans and counts a risk-limiting audit of them, and
 checks what others have published.
 .
 The program was proved before it was built: what it prints is true of the
 records and proves the winner. The prover is not needed to run it.
"""

COPYRIGHT = """\
Format: https://www.debian.org/doc/packaging-manuals/copyright-format/1.0/
Upstream-Name: {name}

Files: *
Copyright: {year} the authors of the RAIRE audit suite
License: Apache-2.0
 On Debian systems the text of the Apache License 2.0 is in
 /usr/share/common-licenses/Apache-2.0.
"""

CHANGES = """\
{name} ({version}) unstable; urgency=medium

  * The program of commit {commit}.
    What changed for users is in CHANGELOG.md.

 -- {maintainer}  {date}
"""

# The program is the very file that was proved and built, so that its SHA-256 is the one that RELEASE.md says.
OVERRIDES = """\
# the program is the very file that was proved and built, so it is not stripped
{name}: unstripped-binary-or-object [{home}/{program}]
"""


def needs(program):
    """The packages that the program and its tools depend on."""
    versions = [tuple(map(int, found.split(b"."))) for found in set(re.findall(rb"GLIBC_(\d+(?:\.\d+)+)", program))]
    libc = f"libc6 (>= {'.'.join(map(str, max(versions)))})" if versions else "libc6"
    return ", ".join([libc, *["libgcc-s1"] * (b"libgcc_s.so.1" in program), PYTHON])


def zipped(text):
    return gzip.compress(text.encode() if isinstance(text, str) else text, 9, mtime=0)


def contents(files, version, commit, when):
    """The bytes and the mode of each file of the package."""
    pages = {os.path.basename(name)[:-4]: files[name].data.decode() for name in files if re.fullmatch(r"docs/help/\w+\.txt", name)}
    date = time.strftime("%Y-%m-%d", time.gmtime(when))
    put = {}
    for name, file in files.items():
        if name.startswith(RUNS) and not re.fullmatch(r"docs/\w+\.py", name):
            put[f"{HOME}/{name}"] = file
        elif name.startswith("examples/"):
            put[f"{DOC}/{name}"] = file._replace(mode=0o644)
        elif name in SHOWN:
            put[f"{DOC}/{SHOWN[name]}"] = file
    kind = type(next(iter(files.values())))
    texts = {
        f"{DOC}/copyright": COPYRIGHT.format(name=NAME, year=date[:4]).encode(),
        f"{DOC}/changelog.gz": zipped(CHANGES.format(name=NAME, version=version, commit=commit, maintainer=MAINTAINER, date=email.utils.formatdate(when))),
        f"usr/share/lintian/overrides/{NAME}": OVERRIDES.format(name=NAME, home=HOME, program=PROGRAM).encode(),
        f"usr/share/bash-completion/completions/{NAME}": completions.for_bash(pages).encode(),
        f"usr/share/zsh/vendor-completions/_{NAME}": completions.for_zsh(pages).encode(),
        **{f"{MAN}/{'raire' if name == 'raire' else f'raire-{name}'}.1.gz": zipped(man.page(name, pages, version, date)) for name in pages},
    }
    put.update({name: kind(data, 0o644) for name, data in texts.items()})
    return put


def sums(put):
    """The MD5 of each file, for dpkg to compare. Links have none."""
    return "".join(f"{hashlib.md5(put[name].data, usedforsecurity=False).hexdigest()}  {name}\n" for name in sorted(put))


def lay_out(folder, put, when):
    """Writes the files and the links, all with the same time."""
    for name, file in put.items():
        path = os.path.join(folder, name)
        os.makedirs(os.path.dirname(path), exist_ok=True)
        with open(path, "wb") as out:
            out.write(file.data)
        os.chmod(path, file.mode)
    for name, to in LINKS.items():
        os.makedirs(os.path.dirname(os.path.join(folder, name)), exist_ok=True)
        os.symlink(to, os.path.join(folder, name))
    for place, folders, names in os.walk(folder, topdown=False):
        for name in names:
            os.utime(os.path.join(place, name), (when, when), follow_symlinks=False)
        os.chmod(place, 0o755)
        os.utime(place, (when, when))


def made(files, version, commit, when):
    """The name and the bytes of the package, or None if dpkg-deb isn't available. The same files give the same bytes."""
    if not shutil.which("dpkg-deb"):
        return None
    put = contents(files, version, commit, when)
    size = sum(-(-len(file.data) // 1024) for file in put.values())
    control = CONTROL.format(name=NAME, version=version, machine=MACHINE, maintainer=MAINTAINER, size=size, depends=needs(files[PROGRAM].data))
    with tempfile.TemporaryDirectory() as folder:
        tree, out = os.path.join(folder, "tree"), os.path.join(folder, "out.deb")
        os.makedirs(os.path.join(tree, "DEBIAN"))
        for name, text in (("control", control), ("md5sums", sums(put))):
            with open(os.path.join(tree, "DEBIAN", name), "w") as file:
                file.write(text)
            os.chmod(os.path.join(tree, "DEBIAN", name), 0o644)
        lay_out(tree, put, when)
        given = {**os.environ, "SOURCE_DATE_EPOCH": str(when)}
        subprocess.run(["dpkg-deb", "--root-owner-group", "-Zxz", "--threads-max=1", "--build", tree, out], check=True, capture_output=True, env=given)
        with open(out, "rb") as file:
            return f"{NAME}_{version}_{MACHINE}.deb", file.read()
