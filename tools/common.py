"""What the scripts do alike: how they take their words, read an input once, and end."""

import bz2
import contextlib
import gzip
import io
import lzma
import os
import shutil
import subprocess
import sys
import threading
import zlib


PIECE = 1 << 16


class Refused(Exception):
    """Why a script can't go on, in one line."""


class Rejoined(io.RawIOBase):
    """A file whose first octets were read already: they come again, and then the rest."""

    def __init__(self, front, file):
        self.front, self.file = front, file

    def readable(self):
        return True

    def readinto(self, buffer):
        if not self.front:
            return self.file.readinto(buffer)
        count = min(len(buffer), len(self.front))
        buffer[:count], self.front = self.front[:count], self.front[count:]
        return count


class Zstd(io.RawIOBase):
    """What the program zstd unpacks of a file: Python can't before its version 3.14."""

    def __init__(self, file):
        try:
            self.child = subprocess.Popen(["zstd", "-dcq"], stdin=subprocess.PIPE, stdout=subprocess.PIPE, stderr=subprocess.PIPE)
        except OSError:
            raise Refused("zstd has compressed it, and the program zstd isn't here to unpack it") from None
        threading.Thread(target=self.feed, args=(file,), daemon=True).start()

    def feed(self, file):
        # Where zstd ends early, or the file can't be read to its end, the status of zstd says so.
        with contextlib.suppress(OSError), self.child.stdin as pipe:
            shutil.copyfileobj(file, pipe)

    def readable(self):
        return True

    def readinto(self, buffer):
        count = self.child.stdout.readinto(buffer)
        if count == 0 and self.child.wait() != 0:
            raise Refused(self.child.stderr.read().decode("utf-8", "replace"))
        return count


UNPACK = {b"BZh": bz2.open, b"\x1f\x8b": gzip.open, b"\xfd7zXZ\x00": lzma.open, b"\x28\xb5\x2f\xfd": Zstd, b"": lambda file: file}


class Input(io.RawIOBase):
    """The octets of a file or a pipe, unpacked; what can't be read is refused by the input's name."""

    def __init__(self, name):
        self.name = name
        with self.refusing():
            file = open(name, "rb")
            front = file.read(max(map(len, UNPACK)))
            magic = next(magic for magic in UNPACK if front.startswith(magic))
            self.file = UNPACK[magic](io.BufferedReader(Rejoined(front, file), PIECE))

    @contextlib.contextmanager
    def refusing(self):
        try:
            yield
        except (OSError, EOFError, zlib.error, lzma.LZMAError, Refused) as error:
            raise Refused(f"{self.name}: {getattr(error, 'strerror', None) or error}") from None

    def readable(self):
        return True

    def readinto(self, buffer):
        with self.refusing():
            return self.file.readinto(buffer)


def opened(name):
    """An input, read once from its front: unpacked where its first octets are those of bzip2, gzip, xz or zstd."""
    return io.BufferedReader(Input(name), PIECE)


def opened_text(name):
    """The same as lines of text; octets that are no text become U+FFFD."""
    return io.TextIOWrapper(opened(name), encoding="utf-8", errors="replace")


def told(error):
    """An error in one line."""
    text = str(error)
    if isinstance(error, OSError) and error.strerror:
        text = f"{error.filename}: {error.strerror}" if error.filename else error.strerror
    return "".join(char if char.isprintable() else " " for char in text.strip())


def answer(main, doc, least, most):
    """What main returns for the words; --help prints the description, and so many words as there mustn't be are a wrong use."""
    words = sys.argv[1:]
    if "--help" in words or "-h" in words:
        print(doc.strip())
        return 0
    if len(words) < least or most is not None and len(words) > most:
        print(f"{os.path.basename(sys.argv[0])}: wrong use; --help says how", file=sys.stderr)
        return 2
    return main(words)


def run(main, doc, least=0, most=None, failed=1):
    """Ends the script with main's answer to its words, at least and at most so many, or 0; with a line where it can't go on."""
    if sys.stderr is None:
        sys.stderr = open(os.devnull, "w")
    try:
        if sys.stdout is None:
            raise Refused("standard output is closed")
        status = answer(main, doc, least, most) or 0
        sys.stdout.flush()
    except (Refused, OSError, UnicodeError, subprocess.SubprocessError) as error:
        status = failed
        if not isinstance(error, BrokenPipeError):      # a reader that has gone is told nothing
            print(f"{os.path.basename(sys.argv[0])}: {told(error)}", file=sys.stderr)
        if sys.stdout:                  # what isn't written yet goes nowhere, so that it can't fail again
            os.dup2(os.open(os.devnull, os.O_WRONLY), sys.stdout.fileno())
    sys.exit(status)
