"""Makes calls of the system below a folder, one for each line of standard input, and prints what each comes to.

  caller.py FOLDER     a line is `create PATH MODE`, `mkdir PATH MODE`, `unlink PATH`, `rmdir PATH`, `rename PATH PATH`,
                       `stat PATH`, `list PATH`, `hold SLOT PATH`, `fstat SLOT` or `drop SLOT`; modes are octal

A slot is a file that is held open (`O_PATH`). Of a file are printed: whether it is a directory, its permissions, whether it
has a link, and the size of what is no directory; of a directory that is listed its names in their order by bytes, with a
slash behind those of directories; of a call that fails its error's number.
"""
import os
import stat
import sys


class Caller:
    def __init__(self, folder):
        self.folder = folder
        self.held = {}

    def at(self, path):
        return f"{self.folder}/{path}"

    def create(self, path, mode):
        os.close(os.open(self.at(path), os.O_CREAT | os.O_EXCL | os.O_WRONLY, int(mode, 8)))

    def mkdir(self, path, mode):
        os.mkdir(self.at(path), int(mode, 8))

    def unlink(self, path):
        os.unlink(self.at(path))

    def rmdir(self, path):
        os.rmdir(self.at(path))

    def rename(self, path, to):
        os.rename(self.at(path), self.at(to))

    def stat(self, path):
        return told(os.stat(self.at(path)))

    def list(self, path):
        with os.scandir(self.at(path)) as found:
            return " ".join(sorted(f"{it.name}/" if it.is_dir(follow_symlinks=False) else it.name for it in found))

    def hold(self, slot, path):
        self.drop(slot)
        self.held[slot] = os.open(self.at(path), os.O_PATH)

    def fstat(self, slot):
        return told(os.fstat(self.held[slot])) if slot in self.held else "none"

    def drop(self, slot):
        if slot in self.held:
            os.close(self.held.pop(slot))

    def call(self, words):
        try:
            return getattr(self, words[0])(*words[1:]) or "done"
        except OSError as error:
            return f"error {error.errno}"


def told(found):
    """Tells of a file what is the same in a mount and on tmpfs."""
    is_directory = stat.S_ISDIR(found.st_mode)
    return f"{is_directory} {stat.S_IMODE(found.st_mode):o} {found.st_nlink > 0} {0 if is_directory else found.st_size}"


if __name__ == "__main__":
    os.umask(0)
    caller = Caller(sys.argv[1])
    for line in sys.stdin:
        print(caller.call(line.split()), flush=True)
