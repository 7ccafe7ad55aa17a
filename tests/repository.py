"""A folder with git: what git is asked there, and the files that are put there."""
import os

from tests.common import Broken, answer

# No settings but those of a repository.
SETTINGS = {"GIT_CONFIG_NOSYSTEM": "1", "GIT_CONFIG_GLOBAL": os.devnull, "LC_ALL": "C"}
PERSON = {f"GIT_{who}_NAME": "person" for who in ("AUTHOR", "COMMITTER")}
PERSON |= {f"GIT_{who}_EMAIL": "person@host" for who in ("AUTHOR", "COMMITTER")}
OWN = ("GIT_DIR", "GIT_INDEX_FILE", "GIT_WORK_TREE")
# With these variables git may write an index where it is only asked.
WRITING = {name: value for name, value in os.environ.items() if name not in OWN} | SETTINGS | PERSON
# With these it doesn't.
READING = WRITING | {"GIT_OPTIONAL_LOCKS": "0"}


def ask_git(folder, *words, env=READING, **options):
    """The status of git in a folder, and what it prints to standard output and standard error."""
    return answer(("git", "-C", folder, *words), env=env, **options)


def git(folder, *words, env=READING, **options):
    """What git prints in a folder. It has to succeed."""
    status, out, faults = ask_git(folder, *words, env=env, **options)
    if status != 0:
        raise Broken(f"git {' '.join(map(str, words))}: {faults.decode(errors='replace')}")
    return out


def write(folder, name, text):
    """Writes a file, and makes the folders that it is in."""
    path = folder / name
    path.parent.mkdir(parents=True, exist_ok=True)
    path.write_text(text)


def index_in(folder):
    """The path of a repository's index."""
    return folder / ".git" / "index"
