"""What the prover keeps of a crate's trials, so that the next one proves only what its own edits changed, and what stands on that.

The prover takes what an earlier check left in a folder only if all that it was proved from is the same (`rattle check
--incremental`), as `rt check` and `rt must-fail` have it."""
import contextlib
import os
import shutil
import tempfile
import threading


class Kept:
    """The folders of a crate's trials. Each trial has one of its own, which begins with what the trial that ended last left, or
    before that with what `rt check` kept of the crate."""

    def __init__(self, room, begin, is_worth_it=True):
        self.room, self.newest, self.lock = room, begin if os.path.isdir(begin) else None, threading.Lock()
        self.is_used, self.is_begun = is_worth_it or self.newest is not None, False

    @contextlib.contextmanager
    def lent(self):
        """A folder for one trial; None if the crate has too few trials for what it costs to keep them."""
        self.is_begun = True
        if not self.is_used:
            yield None
            return
        os.makedirs(self.room, exist_ok=True)
        folder = os.path.join(tempfile.mkdtemp(dir=self.room), "kept")
        with self.lock:
            try:
                copy(self.newest, folder)
            except (OSError, shutil.Error):  # another command may write what this one copies
                shutil.rmtree(folder, ignore_errors=True)
                os.mkdir(folder)
        yield folder
        with self.lock:
            was, self.newest = self.newest, folder
            if was and was.startswith(self.room):
                shutil.rmtree(os.path.dirname(was))

    def forget(self):
        """Has the next trial begin with nothing."""
        with self.lock:
            self.newest = None

    def drop(self):
        shutil.rmtree(self.room, ignore_errors=True)


def copy(folder, to):
    """Copies what the prover kept, its modules by links if these can be made: a check replaces such a file, and changes none."""
    if folder is None:
        os.mkdir(to)
    else:
        shutil.copytree(folder, to, symlinks=True, copy_function=link)


def link(one, other):
    if one.endswith(".oantt"):
        with contextlib.suppress(OSError):
            return os.link(one, other)
    return shutil.copy2(one, other)
