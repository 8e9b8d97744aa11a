"""The files of the repository, as a commit or the checkout has them."""
import pathlib
import re
import subprocess

root = pathlib.Path(__file__).resolve().parent.parent.parent


def git(*words):
    return subprocess.run(["git", *words], cwd=root, capture_output=True, text=True, check=True).stdout


def texts(commit, pattern):
    """The text of each file whose path the pattern fits whole: of a commit, or of the checkout where none is named."""
    if commit is None:
        names, text = git("ls-files", "--cached", "--others", "--exclude-standard"), lambda name: (root / name).read_text()
    else:
        names, text = git("ls-tree", "-r", "--name-only", commit), lambda name: git("show", f"{commit}:{name}")
    return {name: text(name) for name in sorted(names.splitlines()) if re.fullmatch(pattern, name)}


def sources(commit):
    """The text of each file of code."""
    return texts(commit, r"crates/\w+/src/.+\.rt")
