"""Runs the program on cases, each time in a folder of its own."""
import os
import shutil
import signal
import subprocess
import sys
import tempfile
from pathlib import Path

from outcomes import Run

TOP = Path(__file__).resolve().parent.parent
PATIENCE = 120  # seconds, after which a run is said to come to no end


def program_of(words):
    """The program that the words name, or the one that the launcher has built."""
    path = Path(words[0] if words else TOP / "crates/ls_app/out/ls_app").resolve()
    if not path.is_file():
        sys.exit(f"{path} isn't there; ./lspace builds the program")
    if path.read_bytes()[:4] != b"\x7fELF":
        sys.exit(f"{path} is no program, but maybe a script that starts one: its calls would count")
    return str(path)


def compiled(source, folder):
    """The library that `cc` makes of a C file of this folder."""
    if shutil.which("cc") is None:
        sys.exit(f"cc isn't found, and tools/{source} has to be compiled")
    library = Path(folder) / (source + ".so")
    subprocess.run(["cc", "-O1", "-Wall", "-Wextra", "-shared", "-fPIC", "-o", library,
                    TOP / "tools" / source], check=True)
    return str(library)


def loading(library):
    """The value of LD_PRELOAD that loads this library behind those that it names already."""
    return ":".join([*filter(None, [os.environ.get("LD_PRELOAD")]), library])


def folder_of(path):
    return {it.name: it.read_bytes() if it.is_file() else b"" for it in Path(path).iterdir()}


def ends_of(running):
    """What a process wrote to its two outputs, and whether it came to an end in time. Otherwise it
    is ended, and so is each process that it has started."""
    try:
        return *running.communicate(timeout=PATIENCE), True
    except subprocess.TimeoutExpired:
        os.killpg(running.pid, signal.SIGKILL)
        return *running.communicate(), False


def run_case(case, command, environment):
    """A run of the case by this command, to which its words are added. The script is a file, from
    which it is read; with words there is none."""
    with tempfile.TemporaryDirectory() as folder, tempfile.TemporaryFile() as script:
        for name, text in case.files.items():
            (Path(folder) / name).write_bytes(text)
        script.write(b"" if case.words else case.script())
        script.seek(0)
        with subprocess.Popen([*command, *case.words], stdin=script, stdout=subprocess.PIPE,
                              stderr=subprocess.PIPE, cwd=folder, start_new_session=True,
                              env={**os.environ, **environment}) as running:
            written, complaints, in_time = ends_of(running)
        status = running.returncode if in_time else None
        return Run(status, written, complaints, folder_of(folder))
