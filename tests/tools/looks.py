"""What is seen of the files of a folder. They alone say that, so the same files are looked at once."""
import hashlib
import os
import pathlib
import threading


class Looks:
    """Looks at folders by a call, which may change what it looks at."""

    def __init__(self, look):
        self.look, self.known, self.locks = look, {}, {}

    def at(self, room):
        files = tuple(sorted((it.name, hashlib.sha256(pathlib.Path(it).read_bytes()).digest()) for it in os.scandir(room)))
        with self.locks.setdefault(files, threading.Lock()):
            if files not in self.known:
                self.known[files] = self.look(room)
        return self.known[files]
