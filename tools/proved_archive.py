"""Builds the static library of a crate over the libraries that the gate has proved just before.

Usage: proved_archive.py CRATE ARCHIVE

`rt ci` proves a static library and builds none, and its libraries carry no mark that `rt lib` takes them by, so `rt lib`
after it would prove them all again. They are whole all the same: this calls the kit's compiler as `rt lib` does. It
checks the crate once more, with nothing kept, and builds it only if it is proved.
"""

import os
import pathlib
import subprocess
import sys

import wrong_bodies

ROOT = pathlib.Path(__file__).resolve().parent.parent


def built(crate):
    """The folder of a crate's library, as rt builds it."""
    folder = crate.folder / "out" / "rlib"
    if not (folder / f"{crate.name}.rlib").is_dir():
        sys.exit(f"proved_archive: there is no library of {crate.name}: run rt ci first")
    return folder


def words(crate, kit, archive):
    """The words of the compiler's command: the kit's libraries, the repository's, and what is built."""
    uses = crate.line.partition(":")[2].split()
    below = {it.name: built(it) for it in crate.below}
    found = ["--crate-name", crate.name, "src/lib.rt", "--crate-type", "staticlib"]
    for name in dict.fromkeys(["std", *uses]):
        found += ["--extern", f"{name}={below.get(name, kit / 'rlibs') / name}.rlib"]
    for folder in [kit / "rlibs", *below.values()]:
        found += ["-L", f"dependency={folder}"]
    found += ["--antt-project", str(kit / "rattle/logic/antt-project.json"), "--logic-built", str(kit / "logic_built")]
    found += ["--links", f"{crate.name}=", "--jobs", os.environ.get("RT_JOBS", "1"), "--backend", "llvm"]
    return [*found, "--toolchain", str(kit / "toolchain"), "-o", str(archive)]


def main(name, archive):
    page = subprocess.run([os.environ.get("RT", "rt"), "doc"], capture_output=True, text=True, check=True).stdout.strip()
    kit = pathlib.Path(page).parent
    crate = wrong_bodies.crates_of(ROOT)[name]
    archive = pathlib.Path(archive).resolve()
    archive.parent.mkdir(parents=True, exist_ok=True)
    command = [str(kit / "bin/rattle"), "build", *words(crate, kit, archive)]
    done = subprocess.run(command, cwd=crate.folder, capture_output=True, text=True)
    said = (done.stdout + done.stderr).splitlines()
    print("\n".join(said if done.returncode else [it for it in said if it.startswith(("logic=", "axioms"))]))
    return done.returncode


if __name__ == "__main__":
    if len(sys.argv) != 3:
        sys.exit(__doc__)
    sys.exit(main(*sys.argv[1:]))
