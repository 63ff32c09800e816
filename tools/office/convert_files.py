"""Exports as they are on the disk: files, folders and zips. A file is opened each time it is read, and is read a piece at a time."""
import codecs
import contextlib
import errno
import functools
import io
import os
import zipfile
import zlib

import share
from ask import Refusal
from convert_export import NAME, refused

MOST_LISTED_BYTES = 67_108_864  # of a file that is read whole, such as a list of candidates


@contextlib.contextmanager
def faults(place):
    """Turns what a library says about a file into a refusal with the file's name."""
    try:
        yield
    except FileNotFoundError:
        raise Refusal(12, f"{NAME}: {place}: no such file\n") from None
    except (zipfile.BadZipFile, zlib.error, EOFError, NotImplementedError, RuntimeError) as fault:
        raise refused(place, f"not a zip, or truncated: {first_line(fault)}") from None
    except OSError as fault:
        if fault.errno == errno.EINVAL:  # a zip that names a place before its beginning
            raise refused(place, "not a zip, or truncated") from None
        raise Refusal(7, f"{NAME}: {place}: {fault.strerror or 'read fault'}\n") from None


def first_line(fault):
    return " ".join(str(fault).split("\n")[0].split()) or type(fault).__name__


class Source:
    """A file, or a file in a zip. Some exports have a file for each card, so an instance holds little."""

    __slots__ = ("archive", "inner", "outer")

    def __init__(self, path, archive=None, inner=None):
        self.archive, self.inner, self.outer = archive, inner, path

    @property
    def path(self):
        return self.outer if self.archive is None else f"{self.outer}/{self.inner}"

    @property
    def name(self):
        return os.path.basename(self.inner or self.outer)

    def __str__(self):
        return self.path

    def is_named(self, path):
        """Whether it is the file at this path itself, not one in a folder or a zip."""
        return self.archive is None and self.outer == path

    @contextlib.contextmanager
    def opened(self):
        """The bytes after a byte order mark, as a stream."""
        with faults(self.path), (self.archive.open(self.inner) if self.archive else open(self.outer, "rb")) as raw:
            stream = io.BufferedReader(share.counted(raw, self.size(), self.path), 1 << 16)
            if stream.peek(3).startswith(codecs.BOM_UTF8):
                stream.read(3)
            yield stream

    def size(self):
        """The number of bytes that it has according to the disk or the zip."""
        return self.archive.getinfo(self.inner).file_size if self.archive else os.stat(self.outer).st_size

    def read(self):
        with self.opened() as stream:
            data = stream.read(MOST_LISTED_BYTES + 1)
        if len(data) > MOST_LISTED_BYTES:
            raise Refusal(11, f"{NAME}: {self.path}: too long\n")
        return data

    def lines(self):
        """The lines of a text file, numbered."""
        with self.opened() as stream:
            for number, line in enumerate(stream, 1):
                try:
                    yield number, line.decode().rstrip("\r\n")
                except UnicodeDecodeError:
                    raise refused(f"{self.path}: line {number}", "isn't UTF-8") from None


@functools.lru_cache(maxsize=1)
def archive_of(path):
    """A zip. Its list of files may be long, so the zip is kept for the next time that it is read."""
    return zipfile.ZipFile(path)


def see_there(paths):
    """Checks that each path that is named exists, so that none is passed over."""
    for path in paths:
        with faults(path):
            os.stat(path)


def sources_of(paths, takes=None, wanted="file"):
    """The files that are named, and the files of each folder and zip that is named, sorted by name in each."""
    return list(walked(paths, takes, wanted))


def walked(paths, takes=None, wanted="file", is_deep=False):
    """Yields the same files in order. A folder or a zip that is named must have a file whose name the form `takes`."""
    for path in paths:
        found = 0
        for source in inside(path, is_deep):
            if takes is None or source.is_named(path) or takes(source.name):
                found += 1
                yield source
        if not found:
            raise refused(path, f"has no {wanted}")


def inside(path, is_deep):
    """All files of a path. If folders have a file for each card, only the names in one folder are held. `is_deep` takes folders in folders too."""
    if os.path.isdir(path):
        with faults(path):
            names = sorted(os.listdir(path))
        folders = [name for name in names if is_deep and os.path.isdir(os.path.join(path, name))]
        known = set(folders)
        yield from (Source(os.path.join(path, name)) for name in names if name not in known)
        for name in folders:
            yield from inside(os.path.join(path, name), is_deep)
    elif path.lower().endswith(".zip"):
        with faults(path):
            archive = archive_of(path)
            names = sorted(archive.namelist())
        yield from (Source(path, archive, name) for name in names if not name.endswith("/"))
    else:
        yield Source(path)


def items(source, prefix):
    """Yields the values at a place of a JSON text in order, in as much memory as one of them needs."""
    import ijson  # only JSON needs it

    number = 0
    with source.opened() as stream:
        try:
            for value in ijson.items(stream, prefix, use_float=True):
                number += 1
                yield value
        except (ijson.JSONError, UnicodeDecodeError) as fault:
            behind = f" after {prefix.removesuffix('.item')} {number}" if number else ""
            raise refused(source, f"not JSON, or truncated{behind}: {first_line(fault)}") from None


def first(source, prefix):
    """The value at a place of a JSON text, or None."""
    with contextlib.closing(items(source, prefix)) as values:
        return next(values, None)
