#!/usr/bin/env python3
"""Tests of what a release is made of: the version, the tarball and the Debian packages, each installed somewhere, run and
removed again. The packages are tried only where dpkg-deb and strip are installed, by dpkg itself only for root, and by
Debian's checker only where lintian is installed. The tarball, which has the library, and the packages of the library only
where its folder is given.

    tests/documents/release.py crates/udsnorm/out/udsnorm [out/lib]

Prints a line for each case and ends with `N passed, M failed`; its status is 1 where a case failed.
"""

import os
import re
import shutil
import subprocess
import sys
import tempfile
import zipfile
from pathlib import Path

sys.path.insert(0, str(Path(__file__).resolve().parents[1] / "helpers"))

from cases import DONE, Cases
from runs import run

TOP = Path(__file__).resolve().parents[2]
VERSION = (TOP / "VERSION").read_text().rstrip("\n")
GLIBC = re.search(r"glibc (\d\.\d+) or newer", (TOP / "README.md").read_text())[1]
LOG = TOP / "examples" / "vin.log"
CANONICAL = TOP / "examples" / "vin.canonical"

# What lies in share/doc/udsnorm, as it lies in the repository.
SAMPLES = {"python/examples/sessions.py", *(f"examples/{path.name}" for path in (TOP / "examples").iterdir())}
PAGES = {"README.md", *(str(path.relative_to(TOP)) for path in (TOP / "docs").rglob("*") if path.is_file())}
DOCUMENTS = {f"share/doc/udsnorm/{name}" for name in SAMPLES | PAGES}

SHIPPED = {
    "bin/udsnorm",
    "share/man/man1/udsnorm.1",
    "share/bash-completion/completions/udsnorm",
    "share/zsh/site-functions/_udsnorm",
    "share/fish/vendor_completions.d/udsnorm.fish",
    "share/udsnorm/profiles/bench.toml",
    *DOCUMENTS,
}
PACKAGED = {
    "usr/bin/udsnorm",
    "usr/share/man/man1/udsnorm.1.gz",
    "usr/share/bash-completion/completions/udsnorm",
    "usr/share/zsh/vendor-completions/_udsnorm",
    "usr/share/fish/vendor_completions.d/udsnorm.fish",
    "usr/share/udsnorm/profiles/bench.toml",
    "usr/share/doc/udsnorm/copyright",
    "usr/share/doc/udsnorm/changelog.gz",
    "usr/share/doc/udsnorm/changelog.Debian.gz",
    *(f"usr/{name}" for name in DOCUMENTS),
}

# The folder of libraries, and what each package of the library has beside its papers.
LIBRARIES = "usr/lib/x86_64-linux-gnu"
NUMBER = (TOP / "library" / "SONAME").read_text().strip()
PYTHON = "usr/lib/python3/dist-packages"
MODULES = {
    "py.typed", "__init__.py", "__main__.py", "_library.py", "_lines.py", "_profile.py", "_program.py", "testing.py",
    "_formats/__init__.py", "_formats/asc.py", "_formats/blf.py", "_formats/candump.py", "_formats/captures.py", "_formats/csv.py", "_formats/frames.py",
    "_formats/messages.py", "_formats/opened.py", "_formats/packed.py", "_formats/screen.py", "_formats/texts.py", "_formats/trc.py",
}
OF_THE_LIBRARY = {
    f"libudsnorm{NUMBER}": {f"{LIBRARIES}/libudsnorm.so.{NUMBER}", f"{LIBRARIES}/libudsnorm.so.{VERSION}"},
    "libudsnorm-dev": {
        "usr/include/udsnorm.h",
        f"{LIBRARIES}/libudsnorm.a",
        f"{LIBRARIES}/libudsnorm.so",
        f"{LIBRARIES}/pkgconfig/udsnorm.pc",
        "usr/share/doc/libudsnorm-dev/examples/normalise.c",
        "usr/share/doc/libudsnorm-dev/examples/compare.cpp",
    },
    "python3-udsnorm": {f"{PYTHON}/udsnorm/{name}" for name in MODULES},
}
PAPERS = ("copyright", "changelog.gz", "changelog.Debian.gz")

# What the tarball has below a prefix: the program's files, and those of the library. Beside them lie its papers and the wheel.
BELOW_A_PREFIX = SHIPPED | {
    "include/udsnorm.h",
    "lib/libudsnorm.a",
    "lib/libudsnorm.so",
    f"lib/libudsnorm.so.{NUMBER}",
    f"lib/libudsnorm.so.{VERSION}",
    "lib/pkgconfig/udsnorm.pc",
    "share/doc/udsnorm/examples/normalise.c",
    "share/doc/udsnorm/examples/compare.cpp",
}
WHEEL = f"udsnorm-{VERSION}-py3-none-linux_x86_64.whl"
BESIDE = {"README.md", "LICENSE", "CHANGELOG.md", WHEEL}


def output(*words, **options):
    """What a command prints, which has to end well."""
    return subprocess.run(words, check=True, stdout=subprocess.PIPE, text=True, timeout=60, **options).stdout


def files_below(folder):
    return {str(path.relative_to(folder)) for path in folder.rglob("*") if not path.is_dir()}


def difference(found, want):
    return [f"{name} is there" for name in sorted(found - want)] + [f"no {name}" for name in sorted(want - found)]


def runs(cases, name, program):
    """The program is there and answers a sample log."""
    cases.case(name, run(program, ["normalise", LOG]), DONE, CANONICAL.read_bytes())


def version_is_one(cases):
    cases.report("the version has three numbers", [] if re.fullmatch(r"\d+\.\d+\.\d+", VERSION) else [VERSION])
    newest = re.search(r"^## (\S+?),? ", (TOP / "CHANGELOG.md").read_text(), re.M)
    cases.report("the list of changes begins with it", [] if newest and newest[1] == VERSION else [newest[1] if newest else "no version"])


def newer_glibc_is_refused(cases, folder):
    """A library that asks for a call of a glibc newer than the README names (arc4random is of 2.36) is not built: on an older
    system it can't be linked at all."""
    source, archive = folder / "newer.c", folder / "libnewer.a"
    source.write_text("unsigned arc4random(void);\nunsigned udsnorm_newer(void) { return arc4random(); }\n")
    output("cc", "-c", "-fPIC", source, "-o", folder / "newer.o")
    output("ar", "rc", archive, folder / "newer.o")
    words = [TOP / "scripts" / "build-library", archive, folder / "newer"]
    built = subprocess.run(words, stdout=subprocess.PIPE, stderr=subprocess.STDOUT, text=True, timeout=60)
    wrong = [] if built.returncode == 1 and re.search(rf"asks for glibc 2\.36, and {GLIBC} |arc4random", built.stdout) else [built.stdout]
    cases.report("a library that asks for a newer glibc is refused", wrong + sorted(files_below(folder / "newer")))


def made(kind, built, folder):
    """A release of this kind, made of what was built in a folder of its own."""
    return Path(output(TOP / "packaging" / kind, *built, folder).rstrip("\n"))


def is_repeatable(cases, kind, built, folder):
    first, again = (made(kind, built, folder / name) for name in ("first", "again"))
    cases.report(f"{kind} made twice is the same", [] if first.read_bytes() == again.read_bytes() else ["other bytes"])
    return first


def commands_of(readme, folder):
    """The installation and the removal as the README of the tarball has them, below a folder in place of /usr/local."""
    blocks = re.findall(r"```\n(.*?)```", readme, re.DOTALL)
    return [block.replace("sudo ", "").replace("/usr/local", str(folder)) for block in blocks]


def tarball(cases, library, folder):
    file = is_repeatable(cases, "dist", [cases.program, library], folder)
    output("sha256sum", "--check", "--quiet", f"{file.name}.sha256", cwd=file.parent)
    cases.report("the checksum of the tarball", [])
    output("tar", "-xzf", file, "-C", folder)
    unpacked = folder / f"udsnorm-{VERSION}"
    cases.report("the files of the tarball", difference(files_below(unpacked), BELOW_A_PREFIX | BESIDE))
    modules = folder / "modules"
    zipfile.ZipFile(unpacked / WHEEL).extractall(modules)
    has_all_of_the_packages(cases, files_below(unpacked) | files_below(modules))
    same = (unpacked / "bin" / "udsnorm").read_bytes() == Path(cases.program).read_bytes()
    cases.report("its program is the one that was built", [] if same else ["other bytes"])
    runs(cases, "its program where it lies", unpacked / "bin" / "udsnorm")
    imports(cases, "its wheel", modules, {})
    (modules / "udsnorm" / "udsnorm").chmod(0o755)
    runs_as_module(cases, "its wheel as a tool", modules, {})
    links_by_pkg_config(cases, "its library where it lies", unpacked)
    manual = (unpacked / "share" / "man" / "man1" / "udsnorm.1").read_text()
    cases.report("its manual page has the version", [] if f'"udsnorm {VERSION}"' in manual.split("\n")[0] else [manual[:80]])
    root = folder / "local"
    root.mkdir()
    install, remove = commands_of((unpacked / "README.md").read_text(), root)
    output("sh", "-ec", install, cwd=unpacked)
    cases.report("installed as its README says", difference(files_below(root), BELOW_A_PREFIX))
    runs(cases, "the installed program", root / "bin" / "udsnorm")
    links_by_pkg_config(cases, "the installed library", root)
    output("sh", "-ec", remove, cwd=unpacked)
    cases.report("removed as its README says", difference(files_below(root), set()))


def has_all_of_the_packages(cases, found):
    """Each file of a package, its papers but one for Debian alone, is in the tarball or in the wheel, under the same name."""
    here = {Path(name).name for name in found}
    packaged = {Path(name).name for files in (PACKAGED, *OF_THE_LIBRARY.values()) for name in files} - set(PAPERS)
    missing = sorted(name for name in packaged if name.removesuffix(".gz") not in here)
    cases.report("the tarball has what the packages have", [f"no {name}" for name in missing])


def links_by_pkg_config(cases, name, root):
    """The example in C is compiled and linked as pkg-config tells below this folder, with the shared library; and once more with
    the static one."""
    missing = [tool for tool in ("cc", "pkg-config") if not shutil.which(tool)]
    if missing:
        print(f"skipped {name}: no {' and no '.join(missing)} is installed", flush=True)
        return
    told = output("pkg-config", "--cflags", "--libs", "udsnorm", env=os.environ | {"PKG_CONFIG_PATH": str(root / "lib/pkgconfig")})
    links(cases, f"{name}, shared", root, "share/doc/udsnorm/examples", told.split(), {"LD_LIBRARY_PATH": str(root / "lib")})
    links(cases, f"{name}, static", root, "share/doc/udsnorm/examples", [f"-I{root / 'include'}", root / "lib/libudsnorm.a"], {})


def package(cases, folder):
    file = is_repeatable(cases, "deb", [cases.program], folder)
    fields = output("dpkg-deb", "--field", file, "Package", "Version", "Depends")
    want = rf"Package: udsnorm\nVersion: {re.escape(VERSION)}-0upstream1\nDepends: libc6 \(>= \d+\.\d+\)\n"
    cases.report("the fields of the package", [] if re.fullmatch(want, fields) else [fields])
    asked = re.search(r"libc6 \(>= (\d+)\.(\d+)\)", fields)
    wrong = [fields] if not asked or tuple(map(int, asked.groups())) > tuple(map(int, GLIBC.split("."))) else []
    cases.report("the program asks for no glibc newer than the README names", wrong)
    root = folder / "extracted"
    output("dpkg-deb", "--extract", file, root)
    cases.report("the files of the package", difference(files_below(root), PACKAGED))
    runs(cases, "its program", root / "usr" / "bin" / "udsnorm")
    has_what_is_named(cases, root / "usr/share/doc/udsnorm")
    checked(cases, [file])
    installed(cases, [file], PACKAGED, folder / "root", lambda root: runs(cases, "the installed program", root / "usr" / "bin" / "udsnorm"))


def has_what_is_named(cases, folder):
    """The pages that header, docstrings and manual page name are there; and what the pages link to is, from where they lie."""
    naming = [TOP / "library/udsnorm.h", TOP / "share/man/udsnorm.1.in", TOP / "python/README", *(TOP / "python/udsnorm").rglob("*.py")]
    names = {name for path in naming for name in re.findall(r"\bdocs/[\w.-]+\.md\b", path.read_text())}
    wrong = [f"no {name}" for name in sorted(names) if not (folder / name).is_file()]
    cases.report("the package has each page that header, docstrings and manual page name", wrong if len(names) >= 5 else [str(names)])
    wrong, count = [], 0
    for page in folder.rglob("*.md"):
        links = [link for link in re.findall(r"\]\(([^()#\s]+)(?:#\S*?)?\)", page.read_text()) if ":" not in link]
        count += len(links)
        wrong += [f"{page.name}: {link}" for link in links if not (page.parent / link).exists()]
    cases.report("each link of its pages leads somewhere", wrong if count >= 60 else [f"{count} links"])


def packages_of_the_library(cases, library, folder):
    """Each has its files, dpkg installs all of them, and there the examples and the Python package answer a sample log."""
    first, again = (output(TOP / "packaging" / "deb-library", library, folder / name).split() for name in ("one", "other"))
    same = [Path(one).read_bytes() == Path(other).read_bytes() for one, other in zip(first, again)]
    cases.report("the packages of the library made twice are the same", [] if same == [True] * 3 else [str(same)])
    everything = set()
    for file, (name, files) in zip(first, OF_THE_LIBRARY.items()):
        root = folder / name
        output("dpkg-deb", "--extract", file, root)
        files = files | {f"usr/share/doc/{name}/{paper}" for paper in PAPERS}
        cases.report(f"the files of {name}", difference(files_below(root), files))
        everything |= files
    checked(cases, first)
    installed(cases, first, everything, folder / "library-root", lambda root: works(cases, root))


def works(cases, root):
    """What dpkg installed below a root is imported, compiled against and linked to."""
    found = {"LD_LIBRARY_PATH": str(root / LIBRARIES)}
    imports(cases, "the Python package that dpkg installed", root / PYTHON, found)
    if not shutil.which("cc"):
        print("skipped the example in C: no cc is installed", flush=True)
        return
    words = [f"-I{root / 'usr/include'}", f"-L{root / LIBRARIES}", "-ludsnorm"]
    links(cases, "the example in C, with what dpkg installed", root, "usr/share/doc/libudsnorm-dev/examples", words, found)


def imports(cases, name, modules, found):
    """The Python package of a folder answers a sample log, with these words of the environment alone."""
    program = "import sys, udsnorm; sys.stdout.buffer.write(udsnorm.normalise(sys.argv[1]))"
    environment = found | {"PATH": os.environ["PATH"], "PYTHONPATH": str(modules)}
    cases.case(name, run(sys.executable, ["-B", "-c", program, LOG], env=environment), DONE, CANONICAL.read_bytes())


def runs_as_module(cases, name, modules, found):
    """The Python package of a folder runs the program that lies in it."""
    environment = found | {"PATH": "", "PYTHONPATH": str(modules)}
    found = run(sys.executable, ["-B", "-m", "udsnorm", "normalise", LOG], env=environment)
    cases.case(name, found, DONE, CANONICAL.read_bytes())


def links(cases, name, root, examples, words, found):
    """The example in C below a root, compiled with these words, answers a sample log."""
    built = root.parent / "normalise"
    output("cc", root / examples / "normalise.c", *words, "-o", built)
    cases.case(name, run(built, [LOG], env=found | {"PATH": os.environ["PATH"]}), DONE, CANONICAL.read_bytes())


def checked(cases, files):
    """Debian's own checker has no error and no warning for the packages."""
    if not shutil.which("lintian"):
        print("skipped the checks of lintian: it is not installed", flush=True)
        return
    told = subprocess.run(["lintian", "--allow-root", *files], stdout=subprocess.PIPE, text=True, timeout=120).stdout
    cases.report("lintian finds no error and no warning", re.findall(r"^[EW]: .*", told, re.M))


def installed(cases, files, names, root, tried):
    """dpkg installs packages into a root directory of its own, in which no C library is installed; they are tried there, and
    removed."""
    if os.geteuid() != 0:
        print("skipped the installation of packages: only root may", flush=True)
        return
    (root / "var/lib/dpkg/info").mkdir(parents=True)
    (root / "var/lib/dpkg/updates").mkdir()
    (root / "var/lib/dpkg/status").touch()
    dpkg = ["dpkg", f"--root={root}", "--force-depends"]
    output(*dpkg, "--install", *files, stderr=subprocess.DEVNULL)
    outside = {name for name in files_below(root) if not name.startswith("var/lib/dpkg/")}
    cases.report("installed by dpkg", difference(outside, names))
    tried(root)
    output(*dpkg, "--purge", *(Path(file).name.split("_")[0] for file in files), stderr=subprocess.DEVNULL)
    outside = {name for name in files_below(root) if not name.startswith("var/lib/dpkg/")}
    cases.report("removed by dpkg", difference(outside, set()))


def main():
    if len(sys.argv) not in (2, 3):
        sys.exit(__doc__)
    cases = Cases(os.path.abspath(sys.argv[1]))
    version_is_one(cases)
    missing = [tool for tool in ("dpkg-deb", "strip") if not shutil.which(tool)]
    with tempfile.TemporaryDirectory() as directory:
        folder = Path(directory)
        library = Path(sys.argv[2]).resolve() if len(sys.argv) == 3 else None
        if library:
            newer_glibc_is_refused(cases, folder)
            tarball(cases, library, folder)
        else:
            print("skipped the tarball: no library is given", flush=True)
        if missing:
            print(f"skipped the Debian packages: no {' and no '.join(missing)} is installed", flush=True)
        else:
            package(cases, folder)
        if library and not missing:
            packages_of_the_library(cases, library, folder)
    cases.end()


main()
