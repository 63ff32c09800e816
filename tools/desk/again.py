"""The observer's form: runs everything that was typed again, in a separate folder, and says for each file whether its bytes are the same."""
import os
import shutil
import tarfile
import tempfile
import zlib

import bundle
import record
from folder import digest_of_file, DRAFT_END, is_own, SCRATCH, Unusable
from running import Call, Refused, Runner

SAME, DIFFERENT = 0, 6
MOST_BUNDLE_FILES = 10_000
PIECE = 1 << 16
GZIP = zlib.MAX_WBITS | 16  # a gzip stream, whose checksum and length are checked
END_OF_TAR = 2 * tarfile.BLOCKSIZE


def told(path, out):
    """Writes a line for each file, and returns a status that says whether all are the same."""
    with tempfile.TemporaryDirectory() as own:
        source = unpacked(path, os.path.join(own, "bundle")) if os.path.isfile(path) else path
        made = os.path.join(own, "again")
        os.mkdir(made)
        lines = list(Again(source, made).lines())
    wrong = [line for line in lines if line[1] != "the same"]
    for name, said in lines:
        out.write(f"{name}: {said}\n")
    out.write(f"{len(lines) - len(wrong)} of {len(lines)} files are the same\n")
    return DIFFERENT if wrong else SAME


def unpacked(path, place):
    """Takes the files out of a bundle, into a separate folder. Only plain files with plain names are taken out."""
    os.mkdir(place)
    try:
        with tempfile.TemporaryFile() as unzipped:
            unzip(path, unzipped)
            take_out(path, unzipped, place)
    except (tarfile.TarError, zlib.error, EOFError, ValueError, OverflowError) as fault:
        raise Unusable(f"{path}: isn't a desk's bundle, or is damaged: {fault}; get it from its source again") from None
    except OSError as fault:
        raise Unusable(f"{path}: can't be read as a bundle of a desk: {fault.strerror or fault}") from None
    return place


def unzip(path, out):
    """Unpacks a file to its very end, so that no byte of it goes unchecked."""
    with open(path, "rb") as file:
        if file.read(len(bundle.ZIPPED)) != bundle.ZIPPED:
            raise ValueError("it doesn't begin as a desk's bundle does")
        file.seek(0)
        stream = zlib.decompressobj(GZIP)
        while piece := file.read(PIECE):
            out.write(stream.decompress(piece))
            if stream.unused_data or (stream.eof and file.read(1)):
                raise ValueError("something follows after its end")
    if not stream.eof:
        raise EOFError("it was cut off")
    out.seek(0)


def take_out(path, archive, place):
    """Takes the files out of an archive. Only the end of the archive may follow the last file."""
    with tarfile.open(fileobj=archive, mode="r:") as tar:
        for number, entry in enumerate(tar):
            name = entry.name.removeprefix(f"{bundle.FOLDER}/")
            is_plain = entry.type == tarfile.REGTYPE and (record.FILE.fullmatch(name) or name in (record.NAME, bundle.PAGE))
            if not is_plain or number >= MOST_BUNDLE_FILES:
                raise Unusable(f"{path}: isn't a desk's bundle: it has {entry.name!r}")
            with open(os.path.join(place, name), "xb") as file:
                shutil.copyfileobj(tar.extractfile(entry), file)
        archive.seek(tar.offset)
    most = END_OF_TAR + tarfile.RECORDSIZE
    end = archive.read(most)
    if not END_OF_TAR <= len(end) < most or end.strip(b"\0"):
        raise ValueError("its archive has no end, or something after it")


class Again:
    """What a record says, what its folder has, and the result of running the record again."""

    def __init__(self, source, place):
        self.source, self.place, self.runner = source, place, Runner(place)
        self.made = {}  # the digest of each file that was made again, or why it wasn't

    def lines(self):
        """Each file with what is said about it, commands.txt first."""
        try:
            with open(os.path.join(self.source, record.NAME), encoding="utf-8", newline="") as file:
                text = file.read()
            deeds = record.record_of(text)
        except FileNotFoundError:
            raise Unusable(f"{self.source}: {self.why_none()}") from None
        except OSError as fault:
            raise Unusable(f"{self.source}: {record.NAME}: {fault.strerror}") from None
        except (record.Broken, UnicodeDecodeError) as broken:
            yield record.NAME, f"was changed: {broken}"
            return
        yield record.NAME, "the same"
        yield from self.page()
        self.run(line for deed in deeds for line in deed.lines if not isinstance(line, record.Choice))
        for name, digest in record.files_of(deeds).items():
            yield name, self.said(name, digest)
        yield from self.others(record.files_of(deeds))

    def why_none(self):
        """Why there is no record to read."""
        if not os.path.isdir(self.source):
            return "no such file"
        return f"isn't the folder of a desk: it has no {record.NAME}. What to do: the commands in docs/observers.md check its files"

    def page(self):
        """The page of a bundle that says how to run it again, if it is there."""
        path = os.path.join(self.source, bundle.PAGE)
        if os.path.lexists(path):
            with open(path, "rb") as file:
                yield bundle.PAGE, "the same" if file.read(len(bundle.HOW) + 1) == bundle.HOW.encode() else "was changed"

    def run(self, lines):
        for line in lines:
            try:
                done = self.runner.done(Call(line.words, {line.status: line.out}, also_of(line))) if isinstance(line, record.Command) else self.given(line)
                self.made.update(done.made)
            except Refused as refused:
                self.made.update(dict.fromkeys(line.made, f"{refused.line} ended with status {refused.status}, and it was {line.status}"))
            except OSError as fault:
                self.made.update(dict.fromkeys(line.made, f"{os.path.basename(fault.filename)}: {fault.strerror}" if fault.filename else fault.strerror))

    def given(self, line):
        path, own = os.path.join(self.source, line.name), self.runner.fresh(line.name)
        if not is_own(path):
            raise FileNotFoundError(2, "is missing")
        shutil.copyfile(path, own)
        return line._replace(digest=digest_of_file(own))

    def said(self, name, digest):
        path = os.path.join(self.source, name)
        if not is_own(path):
            return "is missing"
        if digest_of_file(path) != digest:
            return "was changed: its SHA-256 isn't that of commands.txt"
        made = self.made.get(name)
        if made != digest:
            return f"isn't made again: {'other bytes were' if record.DIGEST.fullmatch(made or '') else made}"
        return "the same"

    def others(self, files):
        """The files in the folder that don't belong to the record."""
        known = {*files, record.NAME, bundle.PAGE, SCRATCH}
        for name in sorted(os.listdir(self.source)):
            if name not in known and not name.endswith(DRAFT_END):
                yield name, "isn't a file that commands.txt names"


def also_of(line):
    """The files that a command makes besides its standard output."""
    return tuple(name for name in line.made if name != line.out)
