"""Packages of Debian, as apt gives them."""

import glob
import os

from whole_runs import run_command


def downloaded(folder, longest, *names):
    """The files of packages, in a folder; nothing where apt doesn't give them all in so many seconds."""
    os.makedirs(folder, exist_ok=True)
    said = run_command(["timeout", str(longest), "apt-get", "-oAPT::Sandbox::User=root", "download", *names], cwd=folder)
    found = [glob.glob(os.path.join(folder, f"{name}_*.deb")) for name in names]
    return [files[0] for files in found] if said.status == 0 and all(found) else None
