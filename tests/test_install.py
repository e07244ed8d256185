"""./build --install, in copies with stand-ins for the kit and its programs.

What is installed, what is proved before, and that a file is replaced whole or not at all.
"""
import json
import os
import shutil
import stat

import pytest

from stand_in import (LIBRARY, LIBRARY_PROVED, PROGRAM, PROVED, VERSION_FILE, Copy, holds, sources,
                      version)
from support import ROOT, run, same

VERSION = version()
SONAME = f"libarbiter.so.{VERSION.partition('.')[0]}"
LINKS = {f"lib/{SONAME}": f"libarbiter.so.{VERSION}", "lib/libarbiter.so": SONAME}
FILES = {
    "bin/arbiter": (PROGRAM, 0o755),
    f"lib/libarbiter.so.{VERSION}": (f"{LIBRARY}.so", 0o755),
    "lib/libarbiter.a": (f"{LIBRARY}.a", 0o644),
    "lib/pkgconfig/arbiter.pc": ("share/arbiter.pc", 0o644),
    "include/arbiter.h": ("share/arbiter.h", 0o644),
    "share/man/man3/libarbiter.3": ("share/libarbiter.3", 0o644),
    "share/man/man1/arbiter.1": ("share/arbiter.1", 0o644),
    "share/bash-completion/completions/arbiter": ("share/completions/arbiter.bash", 0o644),
    "share/zsh/site-functions/_arbiter": ("share/completions/_arbiter", 0o644),
    "share/fish/vendor_completions.d/arbiter.fish": ("share/completions/arbiter.fish", 0o644),
    "bin/arbiterctl": ("python/arbiterctl", 0o755),
    "share/bash-completion/completions/arbiterctl": ("share/completions/arbiterctl.bash", 0o644),
    "share/zsh/site-functions/_arbiterctl": ("share/completions/_arbiterctl", 0o644),
    "share/fish/vendor_completions.d/arbiterctl.fish": ("share/completions/arbiterctl.fish", 0o644),
    "lib/systemd/system/arbiter-hold.service": ("share/systemd/arbiter-hold.service", 0o644),
    "share/arbiter/grafana.json": ("share/grafana.json", 0o644),
    "share/arbiter/alerts.yml": ("share/alerts.yml", 0o644),
    **{f"share/man/man1/{path.name}": (f"share/man/{path.name}", 0o644)
       for path in (ROOT / "share/man").iterdir()},
}
PACKAGES = ["lib/arbiter/arbiter", "lib/arbiter/arbiter_host"]
MODULES = {f"lib/arbiter/{path.relative_to(ROOT / 'python')}":
           (str(path.relative_to(ROOT)), 0o644)
           for name in PACKAGES for path in (ROOT / "python" / name.rpartition("/")[2]).rglob("*")
           if path.suffix in (".py", ".typed", ".html", ".css", ".js", ".toml")}
INSTALLED = {*FILES, *LINKS, *MODULES}


@pytest.fixture
def copy(scratch):
    return Copy(os.path.realpath(scratch))


def files_below(folder):
    """The files below a folder: {place below it: path}."""
    paths = [f"{at}/{name}" for at, _, names in os.walk(folder) for name in names]
    return {os.path.relpath(path, folder): path for path in paths}


def bytes_of(path):
    with open(path, "rb") as file:
        return file.read()


def is_installed(copy, folder):
    found = files_below(folder)
    same(sorted(found), sorted(INSTALLED), "what is installed")
    same({place: os.readlink(found[place]) for place in LINKS}, LINKS, "where links point to")
    for place, (source, mode) in {**FILES, **MODULES}.items():
        path = found[place]
        same(bytes_of(path) == bytes_of(f"{copy.top}/{source}"), True, f"the bytes of {place}")
        found_mode = stat.S_IMODE(os.stat(path).st_mode), os.path.islink(path)
        same(found_mode, (mode, False), f"the mode of {place}")


def test_installs(copy):
    """All files come below a new folder, which is named from the caller's; also over old files."""
    os.makedirs(f"{copy.folder}/from here")
    words, cwd = [f"{copy.top}/build", "--install", "to a/new place"], f"{copy.folder}/from here"
    status, out, err = copy.call(words, cwd=cwd)
    same(status, 0, f"./build --install: {err}")
    folder = f"{copy.folder}/from here/to a/new place"
    for place in [*FILES, *LINKS, *(f"{name}/" for name in PACKAGES)]:
        holds(f"build: installed {folder}/{place}\n", out, "standard output")
    same(copy.proved(), [PROVED, LIBRARY_PROVED], "what was proved")
    is_installed(copy, folder)
    copy.rt_there(False)
    copy.write("precious", "precious\n")
    os.remove(f"{folder}/bin/arbiter")
    os.symlink(f"{copy.top}/precious", f"{folder}/bin/arbiter")
    # as an installation without a version left it
    os.remove(f"{folder}/lib/libarbiter.so")
    for name in ("share/man/man1/arbiter.1", "lib/libarbiter.so"):
        with open(f"{folder}/{name}", "w", encoding="utf-8") as file:
            file.write("old\n")
    os.chmod(f"{folder}/share/man/man1/arbiter.1", 0o400)
    # modules that the packages had once
    for older in (f"{PACKAGES[0]}/older.py", f"{PACKAGES[1]}/sources/older.py"):
        with open(f"{folder}/{older}", "w", encoding="utf-8") as file:
            file.write("old\n")
    same(copy.call(["./build", f"--install={folder}"])[0], 0, "again, and without the kit")
    is_installed(copy, folder)
    same(copy.read("precious"), "precious\n", "what a link pointed to")
    ended = run([f"{folder}/bin/arbiter", "a"], b"", env={}, cwd="/")
    same(ended.out, b"native: a\n", "the installed program by itself")


def test_modules_are_compiled(copy):
    """Each module is compiled, for users who may not write there, unless the caller wants none."""
    words = ["./build", "--install", "there"]
    environment = copy.environment()
    del environment["PYTHONDONTWRITEBYTECODE"]
    ended = run(words, cwd=copy.top, env=environment)
    same(ended.status, 0, ended.err)
    compiled = {place for place in files_below(f"{copy.top}/there") if place.endswith(".pyc")}
    wanted = {f"{os.path.dirname(place)}/__pycache__/{os.path.basename(place)[:-3]}.cpython-311.pyc"
              for place in MODULES if place.endswith(".py")}
    same(sorted(compiled), sorted(wanted), "compiled modules")


def test_library_is_linked(copy):
    """Both libraries are linked from the proved archive and the kit's C, as the linker is told."""
    _, err = copy.installs("there", "a first installation", [PROVED, LIBRARY_PROVED])
    holds(f"build: proving and linking {LIBRARY}.so: from nothing that took ", err, "the time")
    same(copy.read(f"{LIBRARY}.a"), "archive\nrun time\n", "the static library")
    for part in (" -shared ", f" -Wl,-soname,{SONAME} ",
                 " -Wl,--version-script=share/arbiter.map ",
                 " -Wl,--whole-archive crates/bw_exports/out/libbw_exports.a ",
                 "/c/liblibc_c.a\n"):
        holds(part, copy.read(f"{LIBRARY}.so"), "how the shared library is linked")
    made = ["build.log", "libarbiter.a", "libarbiter.so", "libarbiter.sources", "libbw_exports.a"]
    same(sorted(os.listdir(f"{copy.top}/crates/bw_exports/out")), made, "what is in out/")


def test_library_where_needed(copy):
    """The C library is made for an installation alone, if its sources or files changed."""
    copy.build()
    same(copy.there(f"{LIBRARY}.so"), False, "a library without an installation")
    out, _ = copy.installs("there", "a first installation", [LIBRARY_PROVED])
    holds(f"build: {PROGRAM} is up to date\nbuild: {LIBRARY}.so, in ", out, "a first installation")
    out, err = copy.installs("there", "a second one")
    both = f"build: {PROGRAM} is up to date\nbuild: {LIBRARY}.so is up to date\n"
    holds(both, out, "a second one")
    same(err, "", "standard error of a second one")
    both = [PROVED, LIBRARY_PROVED]
    for crate, wanted in (("bw_exports", [LIBRARY_PROVED]), ("bw_shell", [PROVED]),
                          ("bw_plan", both), ("bw_laws", [])):
        copy.write(sources(crate)[0], "edited\n")
        copy.installs("there", f"after an edit of {crate}", wanted)
        copy.installs("there", f"again, after an edit of {crate}")
    copy.write(f"{LIBRARY}.a", "another\n")
    copy.installs("there", "another static library", [LIBRARY_PROVED])
    os.remove(f"{copy.top}/{LIBRARY}.so")
    copy.installs("there", "no shared library", [LIBRARY_PROVED])
    is_installed(copy, f"{copy.top}/there")


def test_native(copy):
    """--native makes both anew for AVX2, where each processor has it; without it, for all."""
    flags = "flags\t\t: fpu abm avx avx2 bmi1 bmi2 f16c fma movbe\n"
    copy.write("../cpus", 2 * flags)
    copy.write("build", copy.read("build").replace("/proc/cpuinfo", f"{copy.top}/../cpus"))
    copy.installs("there", "for all", [PROVED, LIBRARY_PROVED])
    native = ["rt run --cpu=x86-64-v3 -- --help", "rt lib --cpu=x86-64-v3"]
    for wanted in (native, []):
        status, _, err = copy.call(["./build", "--native", "--install", "there"])
        same(status, 0, err)
        called = [line for line in copy.log() if line.startswith(("rt run", "rt lib"))]
        same(called, wanted, "what the kit links")
    copy.is_native("for AVX2")
    for text in (flags + flags.replace("avx2 ", ""), flags.replace("movbe", "movbes"), ""):
        copy.write("../cpus", text)
        status, _, err = copy.call(["./build", "--native"])
        same(status, 2, err)
        holds("--native needs AVX2", err, "a processor without it")
    copy.write("../cpus", flags)
    status, _, err = copy.call(["./build", "--native", "--deb"])
    same(status, 2, err)
    holds("a package is for all processors", err, "packages")
    copy.installs("there", "for all again", [PROVED, LIBRARY_PROVED])


def test_library_of_another_version(copy):
    """The library is linked again for other names and another version, beside an old soname."""
    copy.installs("there", "a first installation", [PROVED, LIBRARY_PROVED])
    copy.write("share/arbiter.map", copy.read("share/arbiter.map") + "# edited\n")
    copy.installs("there", "other names", [LIBRARY_PROVED])
    is_installed(copy, f"{copy.top}/there")
    copy.write(VERSION_FILE, 'pub const VERSION: &str = "2.3.4";\n')
    copy.installs("there", "another version", [PROVED, LIBRARY_PROVED])
    linked = copy.read("there/lib/libarbiter.so")
    holds(" -Wl,-soname,libarbiter.so.2 ", linked, "the library that is linked with")
    holds(f" -Wl,-soname,{SONAME} ", copy.read(f"there/lib/{SONAME}"), "the old library")
    new = {"lib/libarbiter.so.2": "libarbiter.so.2.3.4", "lib/libarbiter.so": "libarbiter.so.2"}
    links = {**LINKS, **new}
    found = {place: os.readlink(f"{copy.top}/there/{place}") for place in links}
    same(found, links, "where links point to")
    copy.installs("there", "again")


def test_no_wrong_library(copy):
    """Nothing is installed if the library's proof or link fails, or its sources change."""
    copy.build()
    path = sources("bw_check")[1]
    late = f"{LIBRARY}.so does not count as up to date: sources were changed while it was made"
    no_proof, no_room = "it is wrong\nbuild: not built", "no room\nbuild: not built"
    for hook, during, part in (("while", "echo it is wrong >&2; exit 1\n", no_proof),
                               ("toolchain/bin/while", "echo no room >&2; exit 1\n", no_room),
                               ("while", f"echo late >>{copy.top}/{path}\n", late)):
        copy.write(f"../kit/{hook}", during)
        status, _, err = copy.call(["./build", "--install", "there"])
        same((status, copy.there("there")), (1, False), part)
        holds(part, err, part)
        below = files_below(f"{copy.top}/crates/bw_exports")
        same([place for place in below if "/link" in place], [], f"left in out/: {part}")
        copy.write(f"../kit/{hook}", "")
    copy.build()
    copy.rt_there(False)
    status, _, err = copy.call(["./build", "--install", "there"])
    same((status, copy.there("there")), (2, False), "without the kit")
    holds("build: the command rt of the Rattle kit is not on the PATH", err, "without the kit")


def test_tells_where_it_cannot(copy):
    """A folder that cannot be written is told, before anything is built, and nothing is made."""
    copy.write("file", "precious\n")
    places = [f"{copy.top}/file", f"{copy.top}/file/below", "/proc/nowhere"]
    if os.geteuid():
        os.makedirs(f"{copy.folder}/closed", mode=0o555)
        places += [f"{copy.folder}/closed", f"{copy.folder}/closed/below"]
    for built in (False, True):
        if built:
            copy.build()
        for place in places:
            status, out, err = copy.call(["./build", "--install", place])
            same(status, 1, place)
            same("installed" in out, False, f"{place}: {out}")
            holds(f"build: not installed in {place}\n", err, place)
            same(copy.proved(), [], f"what was proved before {place}")
    same(copy.read("file"), "precious\n", "the file in the way")


def test_installs_whole_or_not(copy):
    """If a copy is cut short, or a folder is in the way, the old files stay."""
    folder = f"{copy.folder}/there"
    copy.installs(f"{copy.folder}/elsewhere", "a first installation", [PROVED, LIBRARY_PROVED])
    cut = ["bash", "-c", f"ulimit -f 2; exec ./build --install {folder}"]
    files = [PROGRAM, f"{LIBRARY}.so", f"{LIBRARY}.a"]
    made = max(os.path.getsize(f"{copy.top}/{name}") for name in files)
    page = os.path.getsize(f"{copy.top}/share/arbiter.1")
    same(page > 2048 > made, True, "the man page is cut, and nothing that was made")
    status, _, err = copy.call(cut)
    same(status, 1, "a copy that is cut short")
    holds(f"build: not installed in {folder}\n", err, "a copy that is cut short")
    same(files_below(folder), {}, "files after a copy that was cut short")
    same(copy.call(["./build", "--install", folder])[0], 0, "a whole copy")
    is_installed(copy, folder)
    for path in files_below(folder).values():
        os.chmod(path, 0o600)
        with open(path, "w", encoding="utf-8") as file:
            file.write("old\n")
    same(copy.call(cut)[0], 1, "a copy over old files that is cut short")
    found = {place: bytes_of(path) for place, path in files_below(folder).items()}
    same(found, dict.fromkeys(INSTALLED, b"old\n"), "old files")
    for last in ("share/man/man1/arbiterctl.1", f"{PACKAGES[1]}/sources/script.py"):
        os.remove(f"{folder}/{last}")
        os.makedirs(f"{folder}/{last}")
        status, _, err = copy.call(["./build", "--install", folder])
        same(status, 1, f"a folder in the way: {last}")
        holds(f"build: {folder}/{last} is a folder\n", err, "a folder in the way")
        found = {bytes_of(path) for path in files_below(folder).values()}
        same(found, {b"old\n"}, f"old files beside a folder in the way: {last}")
        os.rmdir(f"{folder}/{last}")


def test_packages_need_debhelper(copy):
    """Without debhelper the line to type is named, before anything is built."""
    status, out, err = copy.call(["./build", "--deb"])
    same((status, out, copy.proved()), (2, "", []), "./build --deb without debhelper")
    holds("build: dh is missing: sudo apt-get install -y debhelper dh-python ", err, "the line")


def test_packages_take_what_is_installed(copy):
    """Debian's tools get all that is installed, with the pages, and what they make is kept."""
    tool = ("#!/bin/sh\ncd .. && for at in arbiter/installed arbiter/debian arbiter/docs; do\n"
            "[ -d $at ] || exit 1; done\nfind arbiter/installed ! -type d >arbiter_1_all.deb\n")
    for name in ("dh", "dh_python3", "dpkg-buildpackage"):
        copy.write(f"../bin/{name}", tool)
        os.chmod(f"{copy.bin}/{name}", 0o755)
    os.makedirs(f"{copy.top}/docs")
    os.makedirs(f"{copy.top}/examples")
    status, out, err = copy.call(["./build", "--deb"])
    same((status, copy.proved()), (0, [PROVED, LIBRARY_PROVED]), f"./build --deb: {err}")
    holds("build: made out/debs/arbiter_1_all.deb\n", out, "./build --deb")
    given = copy.read("out/debs/arbiter_1_all.deb").split("\n")[:-1]
    same(sorted(given), sorted(f"arbiter/installed/{each}" for each in INSTALLED), "the files")
    copy.write("../bin/dpkg-buildpackage", "#!/bin/sh\necho no room >&2\nexit 1\n")
    status, _, err = copy.call(["./build", "--deb"])
    same((status, copy.there("out/debs/arbiter_1_all.deb")), (1, True), "packages that fail")
    holds("no room\nbuild: no packages made\n", err, "packages that fail")
    copy.write("share/debian/changelog", "arbiter (9.9.9) unstable; urgency=low\n")
    status, _, err = copy.call(["./build", "--deb"])
    same(status, 1, "another version")
    holds("begins with 'arbiter (9.9.9)", err, "another version")


def test_arbiterctl_of_the_installation(copy, program, library):
    """The installed command runs from anywhere, and finds the library beside its package."""
    shutil.copy(program.path, f"{copy.kit}/made")
    copy.installs("there", "an installation", [PROVED, LIBRARY_PROVED])
    folder = f"{copy.folder}/moved"
    os.rename(f"{copy.top}/there", folder)
    shutil.rmtree(copy.top)
    shutil.copy(library, f"{folder}/lib/libarbiter.so.{VERSION}")
    script = b"# arbiter run --processors 2\nmkdir a\ndemand a 7\n"
    command = ["/usr/bin/python3", "-B", f"{folder}/bin/arbiterctl"]
    ended = run([*command, "explain", "-o", "json", "-"], script, env={}, cwd="/")
    same((ended.status, ended.err), (0, b""), "explain")
    found = json.loads(ended.out)
    same(found["engine"], f"library {folder}/lib/{SONAME}", "the engine")
    same([each["gets"]["slices"] for each in found["groups"]], [7, 7], "the plan")
    os.remove(f"{folder}/lib/libarbiter.so.{VERSION}")
    ended = run([*command, "explain", "-"], script, env={}, cwd="/")
    same((ended.status, ended.out, ended.err.count(b"\n")), (3, b"", 1), "without the library")
    holds("install the package libarbiter1", ended.err.decode(), "what to do about it")
    ended = run([*command, "--version"], b"", env={}, cwd="/")
    same(ended.out, f"arbiterctl {VERSION}\n".encode(), "--version")
