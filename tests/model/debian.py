"""Programs that tests ask for and that Debian has."""
import os
import shutil
import subprocess

APT = ["apt-get", "-qq", "-o", "Acquire::Retries=1", "-o", "Acquire::http::Timeout=20"]


def had(programs, packages):
    """Whether all these programs are here; installs the packages that have them where they are missing and can be."""
    install = ["install", "-y", "--no-install-recommends", *packages]
    for words in ([], install, ["update"], install):
        if words and os.geteuid() == 0 and shutil.which("apt-get"):
            home = {**os.environ, "DEBIAN_FRONTEND": "noninteractive"}
            subprocess.run([*APT, *words], stdin=subprocess.DEVNULL, capture_output=True, env=home)
        if all(map(shutil.which, programs)):
            return True
    return False
