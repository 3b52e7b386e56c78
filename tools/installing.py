"""Where the files of a release stand below a folder, and how they come there and go again.

The list of what is installed is written first and goes last. So what a kill leaves can be taken
away like a whole installation."""
import contextlib
import hashlib
import json
import os
from pathlib import Path, PurePosixPath

import streams
from companion import TOP, Trouble, read_bytes, read_text

SHARE = "share/lspace"
LIST = f"{SHARE}/INSTALLED"
PART = ".lspace-part"
NOT_COMMANDS = ("install",)
COMPLETIONS = "share/bash-completion/completions"
# What other programs look for in folders of their own.
ELSEWHERE = {"man/lspace.1": "share/man/man1/lspace.1",
             "tools/completion.bash": f"{COMPLETIONS}/lspace",
             "tools/ftdetect.vim": "share/vim/vimfiles/ftdetect/lspace.vim",
             "tools/lspace.vim": "share/vim/vimfiles/syntax/lspace.vim"}


def sums():
    """The sum of each file of the unpacked release, all of which hold."""
    if not (TOP / "SHA256SUMS").is_file():
        raise Trouble(f"{TOP} is no unpacked release; tools/release makes one")
    known = dict(reversed(line.split("  ", 1))
                 for line in read_text(TOP / "SHA256SUMS").splitlines() if "  " in line)
    for path, wanted in known.items():
        if hashlib.sha256(read_bytes(TOP / path)).hexdigest() != wanted:
            raise Trouble(f"{path} isn't as it was packed; unpack the archive again", 1)
    return known


def has_avx2():
    with contextlib.suppress(OSError):
        return " avx2 " in Path("/proc/cpuinfo").read_text(errors="replace").replace("\n", " \n")
    return False


def program_of(known, plain):
    """The path of the program for this processor."""
    second = "programs/avx2/lspace"
    return second if second in known and has_avx2() and not plain else "programs/plain/lspace"


def placed(known, plain):
    """For each path below the prefix the path of its file in the release."""
    places = {"bin/lspace": program_of(known, plain)}
    for path in known:
        if not path.startswith("programs/"):
            places[ELSEWHERE.get(path, f"{SHARE}/{path}")] = path
    return places


def links(known):
    """For each link below the prefix where it leads: the program, and the companions by name with
    their completion."""
    found = {f"{SHARE}/lspace": "../../bin/lspace"}
    for path in known:
        name = PurePosixPath(path).name
        if path.startswith("tools/") and "." not in name and name not in NOT_COMMANDS:
            found[f"bin/lspace-{name}"] = f"../{SHARE}/{path}"
            found[f"{COMPLETIONS}/lspace-{name}"] = "lspace"
    return found


def missing_folders(prefix, paths):
    """The folders that must be made, the outer ones first; the prefix is `.`."""
    wanted = {parent for path in paths for parent in PurePosixPath(path).parents}
    return sorted(str(it) for it in wanted if not os.path.lexists(prefix / it))


def demand_free(prefix, paths):
    if os.path.lexists(prefix / LIST):
        raise Trouble(f"{prefix} has an lspace; take it away by lspace-uninstall first")
    for path in paths:
        if os.path.lexists(prefix / path):
            raise Trouble(f"{prefix / path} is there already, and isn't replaced")


def install(prefix, plain):
    """Copies the release. Where that fails nothing of it stays."""
    known = sums()
    places, leading = placed(known, plain), links(known)
    demand_free(prefix, [*places, *leading])
    listed = {"files": {path: known[at] for path, at in places.items()}, "links": leading,
              "folders": missing_folders(prefix, [*places, *leading, LIST])}
    try:
        make_folders(prefix, listed["folders"])
        put(prefix / LIST, (json.dumps(listed, indent=1) + "\n").encode(), 0o644)
        copy(prefix, places, leading)
    except BaseException:
        with contextlib.suppress(OSError):
            take_away(prefix, listed)
        raise
    return len(places)


def make_folders(prefix, folders):
    for it in folders:
        with streams.telling(f"{prefix / it} can't be made"):
            os.makedirs(prefix / it, exist_ok=True)
            os.chmod(prefix / it, 0o755)


def put(place, data, mode):
    """Makes a file, which has its name when it is whole."""
    part = f"{place}{PART}"
    with streams.telling(f"{place} can't be written"):
        with open(part, "wb") as file:
            os.fchmod(file.fileno(), mode)
            file.write(data)
        os.replace(part, place)


def copy(prefix, places, leading):
    for path, at in places.items():
        is_run = at.startswith("programs/") or os.access(TOP / at, os.X_OK)
        put(prefix / path, read_bytes(TOP / at), 0o755 if is_run else 0o644)
    for path, leads in leading.items():
        with streams.telling(f"{prefix / path} can't be made"):
            os.symlink(leads, prefix / path)


def read_list(prefix):
    """What was installed. No path of the list leads out of the prefix."""
    if not (prefix / LIST).is_file():
        raise Trouble(f"{prefix} has no lspace that was installed")
    try:
        listed = json.loads(read_text(prefix / LIST))
        paths = [*listed["files"], *listed["links"], *listed["folders"]]
        if any(it.startswith("/") or ".." in it.split("/") for it in paths):
            raise ValueError
        return listed
    except (ValueError, LookupError, TypeError, AttributeError, RecursionError):
        raise Trouble(f"{prefix / LIST} is no list of what was installed") from None


def is_ours(prefix, path, listed):
    """Whether there stands what was installed."""
    place = prefix / path
    if place.is_symlink():
        return os.readlink(place) == listed["links"].get(path)
    wanted = listed["files"].get(path)
    return place.is_file() and hashlib.sha256(read_bytes(place)).hexdigest() == wanted


def remove(path):
    with streams.telling(f"{path} can't be taken away"), \
            contextlib.suppress(FileNotFoundError, NotADirectoryError):
        os.unlink(path)


def take_away(prefix, listed):
    """Removes what was installed, and the folders that were made where they are empty. Gives what
    was changed since, which stays."""
    changed = []
    for path in [*listed["links"], *listed["files"]]:
        remove(f"{prefix / path}{PART}")
        if os.path.lexists(prefix / path) and not is_ours(prefix, path, listed):
            changed.append(path)
        else:
            remove(prefix / path)
    remove(f"{prefix / LIST}{PART}")
    remove(prefix / LIST)
    for it in sorted(listed["folders"], reverse=True):
        with contextlib.suppress(OSError):
            os.rmdir(prefix / it)
    return changed
