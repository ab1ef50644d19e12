#!/usr/bin/env python3
"""Lists the places in which a change writes again what stands in the tree already: pairs of places that share six lines
or more, one side of which the change adds. The command `duplicates` finds them; it reads the endings of common languages
and not .rt and .antt, so it is given copies with endings that it reads, under the paths of the repository.

    python3 checks/duplicates.py [--base REV] [--most N]     (since REV: by default since the last commit)

It lists, and judges nothing: two functions that are alike may be right. It ends with 0 where the command ran, with 3
where there is none on this machine, and says so."""
import argparse
import pathlib
import shutil
import subprocess
import sys
import tempfile

ROOT = pathlib.Path(__file__).resolve().parent.parent
# code has the comments of Rust, specs and proofs have those of Haskell
READ_AS = {".rt": ".rs", ".antt": ".hs"}
OTHERS = {".py", ".sh"}


def git(*words: str, folder: pathlib.Path = ROOT) -> bytes:
    return subprocess.run(["git", "-C", str(folder), *words], capture_output=True, check=True).stdout


def name_of(path: str) -> str | None:
    """The name under which a file is copied; None for one that is not compared."""
    ending = pathlib.PurePosixPath(path).suffix
    if ending in READ_AS:
        return path[: -len(ending)] + READ_AS[ending]
    return path if ending in OTHERS else None


def write(folder: pathlib.Path, path: str, text: bytes) -> None:
    name = name_of(path)
    if name:
        target = folder / name
        target.parent.mkdir(parents=True, exist_ok=True)
        target.write_bytes(text)


def commit(folder: pathlib.Path) -> None:
    git("add", "--all", folder=folder)
    git("-c", "user.name=-", "-c", "user.email=-", "commit", "--quiet", "--allow-empty", "--message", "-", folder=folder)


def copy_of(base: str, folder: pathlib.Path) -> None:
    """A repository of two states: that of `base`, committed, and the working tree over it."""
    git("init", "--quiet", folder=folder)
    archive = subprocess.Popen(["git", "-C", str(ROOT), "archive", base], stdout=subprocess.PIPE)
    with tempfile.TemporaryDirectory() as old:
        subprocess.run(["tar", "-x", "-C", old], stdin=archive.stdout, check=True)
        for file in pathlib.Path(old).rglob("*"):
            if file.is_file() and not file.is_symlink():
                write(folder, file.relative_to(old).as_posix(), file.read_bytes())
    commit(folder)
    for file in folder.rglob("*"):
        if file.is_file() and ".git" not in file.relative_to(folder).parts:
            file.unlink()
    for path in git("ls-files", "-z", "--cached", "--others", "--exclude-standard").decode().split("\0"):
        if path and (ROOT / path).is_file():
            write(folder, path, (ROOT / path).read_bytes())


def main() -> int:
    words = argparse.ArgumentParser(description=__doc__, formatter_class=argparse.RawDescriptionHelpFormatter)
    words.add_argument("--base", default="HEAD", help="what counts as added is all since this commit")
    words.add_argument("--most", default="40", help="how many rows at the most")
    given = words.parse_args()
    if not shutil.which("duplicates"):
        print("duplicates: left out, since the command `duplicates` is not on this machine")
        return 3
    with tempfile.TemporaryDirectory() as folder:
        copy_of(given.base, pathlib.Path(folder))
        command = ["duplicates", "--change", "--base", "HEAD", "--most", given.most, "--seconds", "600", "--repo", folder]
        told = subprocess.run(command, capture_output=True, text=True, check=True).stdout
    for read, name in ((".rs", ".rt"), (".hs", ".antt")):
        told = told.replace(read + ":", name + ":")
    print(told, end="")
    return 0


if __name__ == "__main__":
    sys.exit(main())
