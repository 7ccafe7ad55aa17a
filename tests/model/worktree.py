"""Entries beside the files of a working tree: modes, stats and times."""

from tests.model.entries import DIRECTORY, EXECUTABLE, FILE, SUBMODULE, SYMLINK, Stat

# What becomes of a mode where the bit for execution alone differs.
BIT = {FILE: EXECUTABLE, EXECUTABLE: FILE}

# The modes that a tree has too.
NAMED = (FILE, EXECUTABLE, SYMLINK, SUBMODULE, DIRECTORY)

LOW_BITS = 2 ** 32
NANOSECONDS = 10 ** 9


def changed_mode(mode, file_kind, is_executable, has_symlinks, has_bits):
    """What the mode has to become beside a file of this kind: None where it stays, else `type` or `bit` and the mode.

    `file_kind` is `file`, `directory`, `link` or `other`. Only a file can be executable.
    """
    is_file, is_directory, is_link = (file_kind == name for name in ("file", "directory", "link"))
    runs = has_bits and is_executable and is_file
    fits = {
        FILE: is_file,
        EXECUTABLE: True,
        SYMLINK: is_link or (is_file and not has_symlinks),
        SUBMODULE: is_directory,
        DIRECTORY: is_directory,
    }
    if not fits.get(mode, True):
        return "type", mode_of_type(is_directory, runs, has_symlinks and is_link)
    if (mode == FILE and runs) or (mode == EXECUTABLE and has_bits and not runs):
        return "bit", BIT[mode]
    return None


def mode_of_type(is_directory, runs, is_link):
    if is_directory:
        return SUBMODULE
    if runs:
        return EXECUTABLE
    return SYMLINK if is_link else FILE


def is_racy(timestamp, mtime, options):
    """Whether a file of this mtime may have changed since the index was written. Times are seconds and nanoseconds.

    Options are letters: `c` for ctime, `s` for the stat, `n` for nanoseconds, `d` for the device.
    """
    if timestamp[0] != mtime[0]:
        return timestamp[0] < mtime[0]
    return timestamp[1] <= mtime[1] if "s" in options and "n" in options else True


def stats_match(one, other, options):
    """Whether two stats agree in all that the options let count."""
    fields = ["mtime_seconds", "size"]
    has_nanoseconds = "s" in options and "n" in options
    fields += ["mtime_nanoseconds"] if has_nanoseconds else []
    if "c" in options:
        fields += ["ctime_seconds"] + (["ctime_nanoseconds"] if has_nanoseconds else [])
    if "s" in options:
        fields += ["ino", "uid", "gid"] + (["dev"] if "d" in options else [])
    return all(getattr(one, name) == getattr(other, name) for name in fields)


def stat_of_file(modified, created, dev, ino, uid, gid, length):
    """The stat of a file. No time, or one before 1970, is 0; of the other numbers the low 32 bits stay."""
    mtime, ctime = kept_time(modified), kept_time(created)
    low = [value % LOW_BITS for value in (dev, ino, uid, gid, length)]
    return Stat(*ctime, *mtime, *low)


def kept_time(time):
    if time is None or time[0] < 0:
        return 0, 0
    return time[0] % LOW_BITS, time[1]


def exact_time(time):
    """A file's time as an entry keeps it, or None where its seconds don't have 32 bits."""
    return time if 0 <= time[0] < LOW_BITS else None


def low_time(time):
    """The same with the low 32 bits of its seconds; None before 1970."""
    return None if time[0] < 0 else kept_time(time)


def file_time(time):
    """An entry's time as a file's: whole seconds are carried out of the nanoseconds."""
    return time[0] + time[1] // NANOSECONDS, time[1] % NANOSECONDS


def compared(time, other):
    """The sign between an entry's time and a file's; None where the seconds of the file's don't have 32 bits."""
    if exact_time(other) is None:
        return None
    return "=" if time == other else "<" if time < other else ">"
