"""How the tools put a question to the toolchain so that nothing of the repository changes, and what its words about wrong changes come to."""
import contextlib
import pathlib
import re
import shutil
import subprocess
import sys
import tempfile

ROOT = pathlib.Path(__file__).resolve().parent.parent
TOLD = re.compile(r"(?:rt: )?must-fail (\w+)/(\S+)\.edit: (refused, as it must be|NOT REFUSED|BAD EDIT|NOT TRIED)(?:: | ?)(.*)")
VERDICTS = {"refused, as it must be": "refused", "NOT REFUSED": "taken", "BAD EDIT": "no program", "NOT TRIED": "not tried"}
UNFIT = "(only because a proof file names"


@contextlib.contextmanager
def copied():
    """The folder of a copy of all crates, without what is built: the toolchain begins there with what it kept of the same crates here."""
    with tempfile.TemporaryDirectory() as folder:
        place = pathlib.Path(folder)
        shutil.copytree(ROOT / "crates", place / "crates", ignore=shutil.ignore_patterns("out"))
        for name in ("crates.txt", "HANDLES"):
            if (ROOT / name).exists():
                shutil.copy(ROOT / name, place)
        yield place


def tried(place, crates):
    """(crate, edit, verdict, why) of each must-fail edit of these crates, by `rt must-fail` in this copy of the repository; and all that it said.

    `taken`: nothing is wrong; `refused`: a fact of some function fails, or a theorem; `unfit`: no more than a name of a proof file is gone, which says
    little of what the code does; `no program`: the edit cannot be made, or what it makes is not read; `not tried`: nothing is known.
    """
    ran = subprocess.run(["rt", "must-fail", *crates], cwd=place, stdin=subprocess.DEVNULL, stdout=subprocess.PIPE, stderr=subprocess.STDOUT, text=True)
    found = [match.groups() for match in map(TOLD.match, ran.stdout.splitlines()) if match]
    return [(crate, edit, "unfit" if why.startswith(UNFIT) else VERDICTS[word], why) for crate, edit, word, why in found], ran.stdout


def asked(place, crate):
    """How many goals the proof file of each function has to answer in their order; functions without one are left out."""
    folder = place / "crates" / crate
    with tempfile.TemporaryDirectory() as made:
        subprocess.run(["rt", "check", "--generated", made], cwd=folder, stdin=subprocess.DEVNULL, capture_output=True)
        root = pathlib.Path(made) / ("Rattle-%s-proofs" % crate)
        ties = {file.parent.relative_to(root).as_posix(): file.read_text() for file in root.rglob("Tie.antt")}
    return {name: text.count("(answer : Need-") for name, text in ties.items() if (folder / "proofs" / name / "Proof.antt").is_file()}


def known(tool, crate):
    """Leaves where there is no such crate."""
    if not (ROOT / "crates" / crate / "src").is_dir():
        sys.exit("%s: no crate %s" % (tool, crate))
