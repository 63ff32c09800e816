"""What is published at the end: all files of the record and how to run them again, in one archive whose bytes depend on nothing else."""
import gzip
import io
import os
import tarfile
import tempfile

import record

FOLDER, NAME, PAGE = "audit", "audit.tar.gz", "README.txt"
ZIPPED = b"\x1f\x8b\x08" + bytes(6) + b"\xff"  # how gzip begins here: no name, no time, no system
HOW = """\
All files of an audit, and everything that was typed in it
==========================================================

commands.txt   each command, with its status and the SHA-256 of what it made
terms.txt      what was fixed and published before the seed was drawn
page.html      the audit as one page, for any browser
the others     what commands.txt says of each

To run the audit again, unpack the release of the RAIRE audit suite that page.html names at its end, and in its folder type

    ./raire desk --read THE/FOLDER/OF/THIS/FILE

It runs each command again, in a folder of its own, changes nothing here, and says of each file whether its bytes are the same.
The same by the shell alone: put the folder of the release on the path, and type in an empty folder

    sh THE/FOLDER/OF/THIS/FILE/commands.txt

Whether these are the files of the audit is for you to check: compare the digests in terms.txt with those that were published before
the seed was drawn, and the SHA-256 of commands.txt with the one that was published at the end.
"""


def packed(folder):
    """The archive of a folder, as an open file."""
    files = {PAGE: HOW.encode(), record.NAME: folder.text_of_record().encode()}
    out = tempfile.TemporaryFile()
    with gzip.GzipFile(filename="", mode="wb", fileobj=out, compresslevel=6, mtime=0) as zipped:
        with tarfile.open(fileobj=zipped, mode="w", format=tarfile.USTAR_FORMAT) as tar:
            for name, data in files.items():
                tar.addfile(entry_of(name, len(data)), io.BytesIO(data))
            for name in sorted(folder.files()):
                with open(folder.place(name), "rb") as file:
                    tar.addfile(entry_of(name, os.fstat(file.fileno()).st_size), file)
    out.seek(0)
    return out


def entry_of(name, size):
    entry = tarfile.TarInfo(f"{FOLDER}/{name}")
    entry.size, entry.mode, entry.mtime = size, 0o644, 0
    return entry
