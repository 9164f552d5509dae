"""The packages: each is installed into an empty root, runs the demo there, and leaves nothing when it is removed."""
import os
import re
import shutil
import subprocess
import sys
import tempfile
from contextlib import contextmanager

from demo import CLOSED, demo
from systems import PATIENCE, SCOOP, TOP, Ran, Skipped, holds, run, same, test

sys.path.append(os.path.join(TOP, "tools"))
import manual

FILES = ["bin/scoop", "lib/systemd/system/scoop-node@.service", "share/doc/scoop/README.md", "share/man/man1/scoop.1.gz"]


def package(*words):
    return run(*words, program=os.path.join(TOP, "tools", "package"))


def does(*words, folder=None):
    """Runs a command, which has to succeed, in this folder. Returns its output."""
    path = os.environ["PATH"] + ":/usr/sbin:/sbin"
    done = subprocess.run(words, cwd=folder, capture_output=True, text=True, timeout=PATIENCE, env=dict(os.environ, PATH=path))
    same(f"the status of {' '.join(words)}", (done.returncode, done.stderr), (0, ""))
    return done.stdout


def version():
    """The version of the tested program, which prints `scoop VERSION, TEXT`."""
    return run("--version").output.split()[1].rstrip(",")


def names():
    """The names of the archive and of the Debian package."""
    return f"scoop-{version()}-x86_64-linux.tar.gz", f"scoop_{version()}_amd64.deb"


@contextmanager
def packed():
    """A folder, the archive and the Debian package of the tested program there, proved or not, and an empty folder `root`."""
    for tool in ("dpkg", "dpkg-deb"):
        if shutil.which(tool) is None:
            raise Skipped(f"{tool} isn't installed (Debian's dpkg)")
    with tempfile.TemporaryDirectory(prefix="packages-") as folder:
        archive, debian = (os.path.join(folder, name) for name in names())
        same("tools/package", package(SCOOP, folder, "--unproved"), Ran(0, f"{archive}\n{debian}\n", ""))
        root = os.path.join(folder, "root")
        os.mkdir(root)
        yield folder, archive, debian, root


def runs(root, where):
    """The files are there, the program runs, and its unit names it."""
    for name in FILES + [f"share/doc/scoop/examples/{name}" for name in ("bank.toml", "bank-7.lines", "shop.toml")]:
        holds(f"{name} is installed", os.path.isfile(os.path.join(root, name)))
    program = os.path.join(root, "bin", "scoop")
    same("its version", run("--version", program=program), run("--version"))
    same("its demo", demo(program=program), Ran(0, CLOSED, ""))
    with open(os.path.join(root, "lib", "systemd", "system", "scoop-node@.service")) as unit:
        starts = [line for line in unit if line.startswith("ExecStart=")]
    same("the starts of its unit", [line.split()[0] for line in starts], [f"ExecStart={where}/bin/scoop"])


def left(root):
    """The files under a root, but for what dpkg knows of packages."""
    found = []
    for at, folders, names in os.walk(root):
        folders[:] = [name for name in folders if os.path.join(at, name) != os.path.join(root, "var", "lib", "dpkg")]
        found += [os.path.relpath(os.path.join(at, name), root) for name in names]
    return found


@test
def the_archive_runs_where_it_is_unpacked():
    with packed() as (_, archive, _, root):
        does("tar", "-xzf", archive, "--strip-components=1", "-C", root)
        runs(root, "/usr/local")
        for name in does("tar", "-tzf", archive).splitlines():
            if not name.endswith("/"):
                os.remove(os.path.join(root, name.partition("/")[2]))
        same("what is left when its files are removed", left(root), [])


@test
def the_debian_package_is_installed_runs_and_is_removed():
    with packed() as (folder, _, debian, root):
        known = os.path.join(root, "var", "lib", "dpkg")
        os.makedirs(os.path.join(known, "updates"))
        os.mkdir(os.path.join(known, "info"))
        open(os.path.join(known, "status"), "w").close()
        dpkg = ["dpkg", f"--root={root}", "--force-not-root", f"--log={folder}/log"]
        does(*dpkg, "--install", debian)
        runs(os.path.join(root, "usr"), "/usr")
        with open(os.path.join(root, "usr", "share", "doc", "scoop", "copyright")) as came, open(os.path.join(TOP, "LICENSE")) as wanted:
            same("its licence", came.read(), wanted.read())
        does(*dpkg, "--purge", "scoop")
        same("what is left when it is removed", left(root), [])


@test
def equal_programs_give_equal_packages_with_their_checksums():
    sums = []
    for _ in range(2):
        with packed() as (folder, *_):
            wanted = "".join(f"{name}: OK\n" for name in names())
            same("sha256sum", does("sha256sum", "-c", "SHA256SUMS", folder=folder), wanted)
            with open(os.path.join(folder, "SHA256SUMS")) as file:
                sums.append(file.read())
    same("the checksums of the second ones", sums[1], sums[0])


def standing_for(folder, proof):
    """A program that says this of its proof, and is the tested one else."""
    path = os.path.join(folder, "scoop")
    with open(path, "w") as file:
        file.write(f'#!/bin/sh\n[ "$1" != --version ] || exec echo "scoop {version()}, {proof}"\nexec {SCOOP} "$@"\n')
    os.chmod(path, 0o755)
    return path


@test
def an_unproved_program_is_packed_only_by_request_and_says_so():
    with tempfile.TemporaryDirectory(prefix="packages-") as folder:
        program, out = standing_for(folder, "compiled without proof"), os.path.join(folder, "out")
        ran = package(program, out)
        same("its status, output and files", (ran.status, ran.output, os.path.exists(out)), (1, "", False))
        holds("it says why", ran.notes.startswith(f"package: {program} isn't proved."), ran.notes)
        for options, proof, line in ((["--unproved"], "compiled without proof", "This program was compiled without proof."),
                                       ([], "proved", "What it promises is proved of the code that runs.")):
            same("the status", package(standing_for(folder, proof), out, *options).status, 0)
            about = does("dpkg-deb", "--field", os.path.join(out, names()[1]), "Description")
            same(f"the description's last line for {proof!r}", about.splitlines()[-1].strip(), line)


@test
def the_manual_has_all_commands_and_no_faults():
    with tempfile.TemporaryDirectory(prefix="manual-") as folder:
        path = os.path.join(folder, "scoop.1")
        with open(path, "w") as file:
            file.write(manual.page(SCOOP, version()))
        checkers = {"mandoc": ["-T", "lint", "-W", "warning"], "groff": ["-man", "-t", "-Tutf8", "-ww", "-z"]}
        found = [name for name in checkers if shutil.which(name)]
        if not found:
            raise Skipped("neither mandoc nor groff is installed")
        for name in found:
            same(f"what {name} finds", does(name, *checkers[name], path), "")
        text = does("mandoc", "-T", "ascii", path) if "mandoc" in found else does("groff", "-man", "-Tascii", "-P-cbou", path)
        plain = re.sub(".\b", "", text)
        for command in ("answer", "world", "frame", "demo", "check", "key", "node", "client", "up", "audit", "store"):
            holds(f"a section on scoop {command}", f"\n   scoop {command}\n" in plain, plain[:3000])
