"""The folder of an audit, which is the audit's whole state: the files that were given or made, and commands.txt.

A deed is done in a scratch folder. It takes effect in the folder at one instant, when the new commands.txt replaces the old one. Whatever ends the desk
before or after that instant, `recover` leaves the folder as it was before the deed or as it is after it.
"""
import contextlib
import fcntl
import hashlib
import os
import shutil

import record

SCRATCH, GONE = ".desk", "gone"
DRAFT_END, NEW_END = ".part", ".part.new"
PIECE = 1 << 20


class Unusable(Exception):
    """The folder can't be used. The text says why."""


def digest_of_file(path):
    digest = hashlib.sha256()
    with open(path, "rb") as file:
        while piece := file.read(PIECE):
            digest.update(piece)
    return digest.hexdigest()


def sync(path):
    """Waits until a file, or the names in a folder, are on the disk."""
    place = os.open(path, os.O_RDONLY)
    try:
        os.fsync(place)
    finally:
        os.close(place)


def write_synced(path, data):
    with open(path, "wb") as file:
        file.write(data)
        file.flush()
        os.fsync(file.fileno())


def is_own(path):
    """Whether there is a regular file here, not a link to one."""
    return os.path.isfile(path) and not os.path.islink(path)


def missing_folders(path):
    """The folders on the path to this one that don't exist, including itself, the innermost first."""
    missing = []
    while path and not os.path.lexists(path):
        missing.append(path)
        path = os.path.dirname(path)
    return missing


class Folder:
    def __init__(self, path):
        self.path, self.scratch = path, os.path.join(path, SCRATCH)
        self.record, self.version = [], ""
        self.is_locked_by = None
        self.new = []  # what opening the folder made: a record, and folders, the innermost first

    # ---- opening

    def open(self):
        """Locks the folder, reads its record, and finishes what a desk that was killed had begun."""
        try:
            missing = missing_folders(self.path)
            os.makedirs(self.path, exist_ok=True)
            self.lock()
            if not os.path.exists(self.place(record.NAME)):
                self.begin_record()
                self.new = [self.place(record.NAME), *missing]
            self.read()
            self.recover()
            self.drop_cut_off_drafts()
            self.see_writable()
            self.see_undamaged()
        except FileExistsError as fault:
            raise Unusable(f"{fault.filename}: is a file, and a folder is needed") from None
        except OSError as fault:
            raise Unusable(f"{self.path}: {fault.strerror}") from None

    def lock(self):
        """Locks the folder, which only one desk may have. The lock ends with the process that holds it, however the process ends."""
        self.is_locked_by = os.open(self.path, os.O_RDONLY | os.O_DIRECTORY)
        try:
            fcntl.flock(self.is_locked_by, fcntl.LOCK_EX | fcntl.LOCK_NB)
        except BlockingIOError:
            raise Unusable(f"{self.path}: another desk has this folder open; end that one first") from None

    def drop_new(self):
        """Removes what opening the folder made, if nothing was done in it."""
        with contextlib.suppress(OSError):
            for path in self.new:
                os.unlink(path) if is_own(path) else os.rmdir(path)

    def begin_record(self):
        others = [name for name in os.listdir(self.path) if name != SCRATCH]
        if others:
            raise Unusable(f"{self.path}: the folder has files, such as {min(others)}, and no {record.NAME}; give an empty folder")
        self.replace_record([])

    def read(self):
        try:
            with open(self.place(record.NAME), encoding="utf-8", newline="") as file:
                text = file.read()
            self.record, self.version = record.record_of(text), record.digest_of(text.encode())
        except (record.Broken, UnicodeDecodeError) as broken:
            raise Unusable(f"{self.place(record.NAME)}: {broken}") from None

    def see_writable(self):
        """Refuses a folder that takes no files right away, not after the first deed."""
        self.prepare([])
        self.clear()

    def see_undamaged(self):
        """Refuses to build on files that somebody changed."""
        if damaged := self.damaged():
            raise Unusable(f"{self.path}: not as {record.NAME} says: {', '.join(damaged)}; restore the folder from a copy")

    # ---- what the folder has

    def place(self, name):
        return os.path.join(self.path, name)

    def files(self):
        return record.files_of(self.record)

    def text(self, name):
        """The text of a file of the record."""
        with open(self.place(name), encoding="utf-8", errors="backslashreplace") as file:
            return file.read()

    def text_of_record(self):
        return record.text_of(self.record)

    def damaged(self):
        """The files that differ from what the record says."""
        places = {name: self.place(name) for name in self.files()}
        return [name for name, digest in self.files().items() if not is_own(places[name]) or digest_of_file(places[name]) != digest]

    # ---- a deed

    def prepare(self, base):
        """Makes an empty scratch folder, in which links with their names lead to the files of a record."""
        self.clear()
        os.makedirs(os.path.join(self.scratch, GONE))
        for name in record.files_of(base):
            os.symlink(os.path.join("..", name), os.path.join(self.scratch, name))

    def commit(self, new):
        """Makes a record the folder's record. New files are in the scratch folder, and files that the record no longer has are removed."""
        for name in record.files_of(new):
            if is_own(path := os.path.join(self.scratch, name)):
                sync(path)
        try:
            for name in self.files().keys() - record.files_of(new).keys():
                os.rename(self.place(name), os.path.join(self.scratch, GONE, name))
            self.replace_record(new)
        finally:
            self.recover()

    def replace_record(self, new):
        text = record.text_of(new).encode()
        os.makedirs(self.scratch, exist_ok=True)
        path = os.path.join(self.scratch, record.NAME)
        write_synced(path, text)
        os.rename(path, self.place(record.NAME))
        sync(self.path)
        self.record, self.version = new, record.digest_of(text)

    def recover(self):
        """Moves each file of the record that is still in the scratch folder to its place. Everything else in there is removed."""
        for name, digest in self.files().items():
            for path in (os.path.join(self.scratch, name), os.path.join(self.scratch, GONE, name)):
                if is_own(path) and digest_of_file(path) == digest:
                    os.rename(path, self.place(name))
        sync(self.path)
        self.clear()

    def clear(self):
        if os.path.exists(self.scratch):
            shutil.rmtree(self.scratch)

    # ---- drafts: what readers have typed in so far, which no deed has taken yet

    def draft(self, name):
        try:
            with open(self.place(name + DRAFT_END), encoding="utf-8", newline="") as file:
                return file.read()
        except FileNotFoundError:
            return ""

    def write_draft(self, name, text):
        path = self.place(name + NEW_END)
        write_synced(path, text.encode())
        os.rename(path, self.place(name + DRAFT_END))
        sync(self.path)

    def drop_cut_off_drafts(self):
        for name in os.listdir(self.path):
            if name.endswith(NEW_END):
                os.unlink(self.place(name))

    def drop_draft(self, name):
        if os.path.exists(path := self.place(name + DRAFT_END)):
            os.unlink(path)
