"""Sessions in documents: lines after "$ " that a person types, and below each what it prints, with the exit status in square brackets where it is not 0."""
import os
import pathlib
import re
import subprocess

root = pathlib.Path(__file__).resolve().parent.parent.parent


def session_of(page):
    """The first session of a page."""
    return re.search(r"```console\n(.*?)```", page, re.DOTALL)[1]


def typed(session, folder, shell="sh"):
    """The session with what its lines print now, in a folder."""
    paths = os.environ | {"PATH": f"{root / 'target/bin'}:{os.environ['PATH']}"}
    found = []
    for line in session.splitlines():
        if line.startswith("$ "):
            command = [shell, "-c", line.removeprefix("$ ")]
            done = subprocess.run(command, cwd=folder, env=paths, stdout=subprocess.PIPE, stderr=subprocess.STDOUT, text=True, check=False)
            found += [line, *done.stdout.splitlines()] + ([f"[{done.returncode}]"] if done.returncode else [])
    return "".join(f"{line}\n" for line in found)
