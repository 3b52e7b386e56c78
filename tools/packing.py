"""What a release has, and how it is packed: the same bytes from the same commit and program.

  files = files_of_commit(top)          the files of the commit that a release has, by their paths
  data = packed(folder, files, time)    a tar file of them: names sorted, one time, owner 0

A file is a pair of its bytes and its mode. The archive isn't compressed, since compressed bytes
differ between versions of the same library."""
import ast
import hashlib
import io
import subprocess
import tarfile
from pathlib import PurePosixPath

from companion import Trouble

COMPANIONS = ["assess", "draw", "explain", "install", "interview", "kst", "made-class", "report",
              "shell", "uninstall"]
FOLDERS = ["README.md", "docs", "samples", "tools"]
DOCUMENTS = (".md", ".svg", ".png")
FOR_OTHERS = ["tools/completion.bash", "tools/ftdetect.vim", "tools/lspace.vim"]


def git(top, *words):
    """What git prints for these words."""
    try:
        done = subprocess.run(["git", "-C", str(top), *words], stdout=subprocess.PIPE,
                              stderr=subprocess.PIPE)
    except OSError as error:
        raise Trouble(f"git can't be run: {error.strerror}", 3) from None
    if done.returncode:
        why = done.stderr.decode("utf-8", "replace").strip().split("\n")[-1]
        raise Trouble(f"git {words[0]}: {why}", 3)
    return done.stdout


def imported_by(source):
    """The names of the modules that a Python source imports."""
    nodes = list(ast.walk(ast.parse(source)))
    names = [it.name for node in nodes if isinstance(node, ast.Import) for it in node.names]
    return names + [node.module for node in nodes if isinstance(node, ast.ImportFrom)]


def needed(sources):
    """The paths of the companions that are there, and of the modules on which they stand."""
    found = []
    waiting = [f"tools/{name}" for name in COMPANIONS if f"tools/{name}" in sources]
    while waiting:
        path = waiting.pop()
        found.append(path)
        modules = [f"tools/{name}.py" for name in imported_by(sources[path][0])]
        waiting += [it for it in modules if it in sources and it not in found + waiting]
    return found


def files_of_commit(top):
    """The documents, samples and companions of the commit, as it has them."""
    with tarfile.open(fileobj=io.BytesIO(git(top, "archive", "HEAD", *FOLDERS))) as archive:
        known = {it.name: (archive.extractfile(it).read(), 0o755 if it.mode & 0o100 else 0o644)
                 for it in archive if it.isfile()}
    kept = needed(known) + [path for path in FOR_OTHERS if path in known]
    kept += [path for path in known if path.startswith("samples/")]
    kept += [path for path in known if path == "README.md" or
             path.startswith("docs/") and path.endswith(DOCUMENTS)]
    return {path: known[path] for path in kept}


def sums_of(files):
    """The text of `sha256sum` for these files."""
    return "".join(f"{hashlib.sha256(files[path][0]).hexdigest()}  {path}\n"
                   for path in sorted(files)).encode()


def packed(folder, files, time):
    """A tar file with these files in a folder."""
    out = io.BytesIO()
    parents = {str(it) for path in files for it in PurePosixPath(folder, path).parents} - {"."}
    with tarfile.open(fileobj=out, mode="w", format=tarfile.USTAR_FORMAT) as archive:
        for name in sorted(parents | {f"{folder}/{path}" for path in files}):
            it = tarfile.TarInfo(name)
            it.mtime = time
            if name in parents:
                it.type, it.mode = tarfile.DIRTYPE, 0o755
                archive.addfile(it)
            else:
                data, it.mode = files[name[len(folder) + 1:]]
                it.size = len(data)
                archive.addfile(it, io.BytesIO(data))
    return out.getvalue()
