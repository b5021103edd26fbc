"""Copies of the sources, in which the scripts beside this file build."""
import os
import shutil
import subprocess

TOP = os.path.dirname(os.path.dirname(os.path.realpath(__file__)))
PARTS = ("src", "specs", "proofs")


def room():
    """Returns the folder of all copies: in that of git, since rt ci refuses a second crates.txt at any other place in the repository."""
    asked = subprocess.run(["git", "rev-parse", "--absolute-git-dir"], cwd=TOP, stdout=subprocess.PIPE, stderr=subprocess.DEVNULL, text=True)
    return f"{asked.stdout.strip()}/voldaguz" if asked.returncode == 0 else f"{TOP}/.build"


def copy_crate(name, to):
    """Brings a copy's crate up to date, and leaves what was built there."""
    for part in PARTS:
        shutil.rmtree(f"{to}/crates/{name}/{part}", ignore_errors=True)
        if os.path.isdir(f"{TOP}/crates/{name}/{part}"):
            shutil.copytree(f"{TOP}/crates/{name}/{part}", f"{to}/crates/{name}/{part}")


def copy_sources(to):
    """Brings a copy of all sources up to date."""
    os.makedirs(f"{to}/crates", exist_ok=True)
    for file in ("crates.txt", "HANDLES"):
        shutil.copy2(f"{TOP}/{file}", to)
    for name in os.listdir(f"{TOP}/crates"):
        copy_crate(name, to)
