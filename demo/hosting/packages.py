"""Debian's packages that the demo wants, installed where they are missing."""
import importlib
import importlib.util
import os
import shutil
import subprocess
import sys


def want(modules: dict[str, str], commands: dict[str, str] | None = None) -> None:
    """Installs what is missing: packages by the modules of Python and by the commands that they bring."""
    missing = [package for module, package in modules.items() if not importlib.util.find_spec(module)]
    missing += [package for command, package in (commands or {}).items() if not shutil.which(command)]
    if not missing:
        return
    call = ["apt-get", "install", "-y", "--no-install-recommends", *missing]
    if os.geteuid() != 0:
        call = ["sudo", *call]
    print("installing from Debian: " + " ".join(missing), flush=True)
    quiet = {"stdout": subprocess.DEVNULL, "env": {**os.environ, "DEBIAN_FRONTEND": "noninteractive"}}
    if not shutil.which("apt-get") or subprocess.run(call, **quiet).returncode:
        sys.exit("wanted, and not installed: " + " ".join(missing) + " (apt-get update may help)")
    importlib.invalidate_caches()
