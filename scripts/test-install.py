#!/usr/bin/env python3
"""Installs Lindenscoop into temporary folders and tries what stands there:  scripts/test-install.py [TEST..]

Without names of tests, as test_dist, all are run. `make` builds first what is missing. Needs groff, pkg-config, a C and a C++ compiler,
bash. The completion for bash is run; those for zsh and fish are texts that are compared with what the command takes.
"""
import json
import os
import pathlib
import re
import shutil
import subprocess
import sys
import tarfile
import tempfile
import traceback

ROOT = pathlib.Path(__file__).resolve().parent.parent
COMMANDS = ["listen", "export", "runs", "why", "write", "simulate"]
FUNCTIONS = ["read", "write", "search", "start", "feed", "feed_all", "mark", "full_year", "days_since_1980", "add_second", "runs_clear", "runs_clear_rack", "second_date", "message"]
VERSION = subprocess.run([ROOT / "scripts/version"], capture_output=True, text=True).stdout.strip()
SO = "liblindenscoop.so"
LINKED = SO + "." + VERSION.rsplit(".", 1)[0]
# what the templates leave to be filled in; machine code has letters between two @ by chance
PLACES = {place for folder in ("bindings", "docs/man") for path in (ROOT / folder).rglob("*.in") for place in re.findall(rb"@[A-Z]+@", path.read_bytes())}
PYTHON = "python%d.%d" % sys.version_info[:2]
# What a caller has set must not decide what is found.
FOREIGN = ("MAKEFLAGS", "MAKELEVEL", "MFLAGS", "PREFIX", "DESTDIR", "LD_LIBRARY_PATH", "LINDENSCOOP_LIBRARY", "LINDENSCOOP_LIB_DIR", "PYTHONPATH",
           "PYTHONDONTWRITEBYTECODE", "PKG_CONFIG_PATH")
ENVIRONMENT = {name: value for name, value in os.environ.items() if name not in FOREIGN}
counts = {True: 0, False: 0}


def check(name, good, told=""):
    counts[bool(good)] += 1
    if not good:
        print(f"failed: {name}: {told}")


def same(name, found, wanted):
    check(name, found == wanted, f"{found!r}, not {wanted!r}")


def run(*words, **more):
    """A command, with words added to the environment by `also`."""
    environment = more.pop("env", {**ENVIRONMENT, **more.pop("also", {})})
    return subprocess.run([str(word) for word in words], capture_output=True, text=True, stdin=subprocess.DEVNULL, env=environment, **more)


def make(*words, **more):
    return run("make", "--no-print-directory", "-C", more.pop("tree", ROOT), f"PYTHON={sys.executable}", *words, **more)


def listed(folder):
    """The files and links below a folder."""
    return sorted(str(path.relative_to(folder)) for path in pathlib.Path(folder).rglob("*") if path.is_symlink() or not path.is_dir())


def expected(python=f"lib/{PYTHON}/site-packages", lib="lib", man="share/man"):
    module = [path.name for path in (ROOT / "python/lindenscoop").glob("*.py")]
    return sorted(
        ["bin/lindenscoop", "include/lindenscoop.h", f"{lib}/liblindenscoop.a", f"{lib}/pkgconfig/lindenscoop.pc",
         f"{man}/man1/lindenscoop.1", f"{man}/man3/lindenscoop.3", "share/bash-completion/completions/lindenscoop",
         "share/zsh/site-functions/_lindenscoop", "share/fish/vendor_completions.d/lindenscoop.fish"]
        + [f"{lib}/{name}" for name in (SO, LINKED, f"{SO}.{VERSION}")]
        + [f"{man}/man3/lindenscoop_{name}.3" for name in FUNCTIONS]
        + [f"{python}/lindenscoop/{name}" for name in module + [LINKED]])


# ---- What is installed ----


def test_files(prefix, _):
    same("the installed files", listed(prefix), expected())
    same("links of the library", [os.readlink(prefix / "lib" / name) for name in (SO, LINKED)], [LINKED, f"{SO}.{VERSION}"])
    for name in listed(prefix):
        path, runs = prefix / name, name == "bin/lindenscoop" or name.startswith(f"lib/{SO}")
        check(f"{name} is there", path.is_file(), "a link to nothing")
        if not path.is_symlink():
            same(f"mode of {name}", oct(path.stat().st_mode & 0o777), "0o755" if runs else "0o644")
        check(f"{name} is filled in", not any(place in path.read_bytes() for place in PLACES), "a place of the template is left")


def test_versions(prefix, _):
    header = (prefix / "include/lindenscoop.h").read_text()
    same("version of the header", re.findall(r'#define LINDENSCOOP_VERSION "(.*)"', header), [VERSION])
    same("version of pkg-config", pkg_config(prefix, "--modversion"), [VERSION])
    same("version of the command", run(prefix / "bin/lindenscoop", "--version").stdout, f"lindenscoop {VERSION}\n")
    packages = json.loads(run("cargo", "metadata", "--no-deps", "--offline", "--format-version=1", cwd=ROOT).stdout)["packages"]
    same("versions of cargo", {p["version"] for p in packages if p["name"].startswith("lindenscoop")}, {VERSION})
    for section in "13":
        check(f"version of man {section}", f"lindenscoop {VERSION}" in rendered(prefix, section), rendered(prefix, section)[-200:])
    same("soname", dynamic(prefix / "lib" / SO, "SONAME"), [LINKED])


def dynamic(path, kind):
    return re.findall(rf"\({kind}\).*\[(.*)\]", run("readelf", "-d", path).stdout)


def test_exports(prefix, _):
    """No name but those that the header declares."""
    header = (prefix / "include/lindenscoop.h").read_text()
    names = run("nm", "-D", "--defined-only", prefix / "lib" / SO).stdout.split("\n")
    declared = set(re.findall(r"^LINDENSCOOP_NOT_NULL \w+ (\w+)\(", header, re.M))
    same("exported names", {line.split()[-1] for line in names if line}, declared)
    check("exported names are some", len(declared) == 10, declared)


# ---- From C, C++ and Python ----


def pkg_config(prefix, *words):
    return run("pkg-config", *words, "lindenscoop", also={"PKG_CONFIG_PATH": str(prefix / "lib/pkgconfig")}).stdout.split()


def example():
    """The program of the manual page, as a reader would type it."""
    text = (ROOT / "docs/man/lindenscoop.3.in").read_text().split(".SH EXAMPLES\n.EX\n")[1].split(".EE")[0]
    return text.replace(r"\-", "-").replace(r"\e", "\\")


def build(compiler, source, *words):
    program = source.with_suffix(".run")
    program.unlink(missing_ok=True)
    done = run(*compiler, "-Wall", "-Wextra", "-Wpedantic", "-Werror", source, "-o", program, *words)
    check(f"compiled by {compiler}", done.returncode == 0, done.stderr)
    return program


def says_date(name, *words, **more):
    wanted = "2000-02-29\nthis form does not say whether the clock is synchronised\n"
    done = run(*words, **more)
    same(name, (done.returncode, done.stdout), (0, wanted))


def test_programs(prefix, work):
    lib = prefix / "lib"
    for compiler, end in ([os.environ.get("CC", "cc"), "-std=c99"], "c"), ([os.environ.get("CXX", "c++"), "-std=c++11"], "cc"):
        source = work / f"example.{end}"
        source.write_text(example())
        shared = build(compiler, source, *pkg_config(prefix, "--cflags", "--libs"))
        same(f"{end} needs the shared library", [name for name in dynamic(shared, "NEEDED") if "linden" in name], [LINKED])
        says_date(f"{end}, shared", shared, also={"LD_LIBRARY_PATH": str(lib)})
        says_date(f"{end}, shared, by rpath", build(compiler, source, *pkg_config(prefix, "--cflags", "--libs"), f"-Wl,-rpath,{lib}"))
        whole = build(compiler, source, "-static", *pkg_config(prefix, "--static", "--cflags", "--libs"))
        same(f"{end}, static, needs nothing", dynamic(whole, "NEEDED"), [])
        says_date(f"{end}, static", whole)
        archive = build(compiler, source, *pkg_config(prefix, "--cflags"), lib / "liblindenscoop.a")
        same(f"{end}, archive, needs no shared library", [name for name in dynamic(archive, "NEEDED") if "linden" in name], [])
        says_date(f"{end}, archive", archive)


def test_pkg_config(prefix, work):
    same("its flags", pkg_config(prefix, "--cflags", "--libs"), [f"-I{prefix}/include", f"-L{prefix}/lib", "-llindenscoop"])
    moved = work / "moved"
    same("its flags elsewhere", pkg_config(prefix, f"--define-variable=prefix={moved}", "--cflags", "--libs"),
         [f"-I{moved}/include", f"-L{moved}/lib", "-llindenscoop"])


def imported(packages):
    code = ("import lindenscoop as l; r = l.read('racal', b'XGU000229000000\\r'); "
            "print(r.sync, r.date.year, l.__file__, l.library.LIBRARY._name)")
    done = run(sys.executable, "-c", code, cwd="/", also={"PYTHONPATH": str(packages)})
    return done.stdout.split() or done.stderr


def test_python(prefix, _):
    module = prefix / f"lib/{PYTHON}/site-packages/lindenscoop"
    same("Python", imported(module.parent), ["None", "2000", f"{module}/__init__.py", f"{module}/{LINKED}"])
    check("the module's link is relative", not os.readlink(module / LINKED).startswith("/"), os.readlink(module / LINKED))


# ---- The command, its manual and its completion ----


def test_command(prefix, _):
    command = prefix / "bin/lindenscoop"
    done = run(command, "listen", ROOT / "samples/standard.log", "--form", "standard")
    strings = done.stdout.count("date=")
    check("listen", done.returncode == 0 and strings > 0 and f"telegrams={strings}" in done.stderr, done)
    done = run(command, "export", "--csv", "--form", "1", ROOT / "samples/standard.log")
    same("export", (done.returncode, done.stdout.count("\n")), (0, strings + 1))


def command_words(prefix):
    """What the command itself takes: options of each subcommand, the forms that can be listened for, all forms with their numbers."""
    command = prefix / "bin/lindenscoop"
    helps = [run(command, *words, "--help").stdout for words in [[]] + [[name] for name in COMMANDS]]
    named = sorted(set(re.findall(r"--[a-z]+", "".join(helps))))
    options = {name: {word for word in named if "there is no option" not in run(command, name, word).stderr} for name in COMMANDS}
    serial, every = (dict(re.findall(r"(\w+) \((\d+)\)", run(command, *words).stderr)) for words in (["listen", "-", "--form", "9"], ["write", "none"]))
    return options, list(serial), every


def other_forms(serial, every):
    """The forms that are not listened for, as the completions for zsh and fish name them."""
    return " ".join(name for name in every if name not in serial)


def test_words(prefix, _):
    """The subcommands that the command names are those that are tried here, and what is gathered from it is something."""
    told = run(prefix / "bin/lindenscoop", "none").stderr
    same("subcommands", re.findall(r"\w+", told.split("one of ")[1].split("\n")[0]), COMMANDS)
    options, serial, every = command_words(prefix)
    same("how many options", [len(options[name]) for name in COMMANDS], [5, 6, 8, 1, 1, 8])
    same("how many forms", (len(serial), len(every), other_forms(serial, every)), (9, 12, "frame block c37118"))
    same("their numbers", list(every.values()), [str(number) for number in range(1, 13)])


def rendered(prefix, section):
    page = prefix / f"share/man/man{section}/lindenscoop.{section}"
    return run("groff", "-man", "-Tascii", "-P-cbou", "-rLL=200n", page).stdout


def test_manual_renders(prefix, _):
    for section in "13":
        done = run("groff", "-man", "-Tutf8", "-ww", "-z", prefix / f"share/man/man{section}/lindenscoop.{section}")
        same(f"warnings of man {section}", (done.returncode, done.stdout + done.stderr), (0, ""))
    for name in FUNCTIONS:
        same(f"man lindenscoop_{name}", os.readlink(prefix / f"share/man/man3/lindenscoop_{name}.3"), "lindenscoop.3")
        check(f"lindenscoop_{name} in its NAME", f"lindenscoop_{name}" in rendered(prefix, "3").split("SYNOPSIS")[0], "")


def test_manual_of_the_command(prefix, _):
    options, _, every = command_words(prefix)
    source = (prefix / "share/man/man1/lindenscoop.1").read_text().replace(r"\-", "-")
    usage = re.sub(r"\\f[BIR]", "", source.split(".SH DESCRIPTION")[0])
    parts = dict(re.findall(r"^\.SS (\w+)\n(.*?)(?=^\.S[SH] )", source, re.S | re.M))
    for name in COMMANDS:
        check(f"{name} in the manual", name in parts, sorted(parts))
        heads = "".join(re.findall(r"^\.TP\n(.*)$", parts.get(name, ""), re.M))
        same(f"options of {name} in its manual", set(re.findall(r"--[a-z]+", heads)), options[name] - {"--help"})
        calls = re.findall(rf"^lindenscoop {name}\b.*(?:\n  .*)*", usage, re.M)
        same(f"options of {name} in the synopsis", set(re.findall(r"--[a-z]+", "".join(calls))), options[name] - {"--help"})
    text = re.sub(r"\s+", " ", rendered(prefix, "1"))
    for name, number in every.items():
        check(f"form {name} in the manual", f"{name} ({number})" in text, "")
    for words in ("--help, -h", "--version, -V", "EXIT STATUS 0 ", " 1 nothing", " 2 the call", " 3 a read"):
        check(f"{words!r} in the manual", words in text, "")


def test_manual_of_the_library(prefix, _):
    header = (prefix / "include/lindenscoop.h").read_text()
    text = re.sub(r"\s+", " ", rendered(prefix, "3"))
    functions = re.findall(r"^(?:static inline|LINDENSCOOP_NOT_NULL) .*?\b(lindenscoop_\w+)\(", header, re.M)
    check("functions are found", len(functions) > 40, functions)
    for name in functions:
        check(f"{name} in the manual", re.search(rf"\b{name}\b", text), "")
    numbers = dict(re.findall(r"^    (LINDENSCOOP_\w+) = (\d+)", header, re.M))
    refusals = re.findall(r'case (LINDENSCOOP_\w+):\n        return "(.*)";', header)[1:-1]
    same("how many refusals", len(refusals), 17)
    forms = re.findall(r"^    (LINDENSCOOP_\w+) = (\d+)", header.split("/* The forms.")[1].split("};")[0], re.M)
    same("how many forms in the header", len(forms), 12)
    for name, number in forms:
        check(f"{name} in the manual", f"{name} ({number})" in text, number)
    for name, meaning in refusals:
        check(f"{name} in the manual", f" {numbers[name]} {name}: {meaning} " in text, meaning)


def completed(prefix, *words):
    """What bash offers for the last word; 'files' where it is left to readline."""
    script = ('compopt() { echo files; }; source "$1"; shift; COMP_WORDS=("$@"); COMP_CWORD=$(($# - 1)); '
              '_lindenscoop; printf "%s\\n" "${COMPREPLY[@]}"')
    done = run("bash", "-c", script, "bash", prefix / "share/bash-completion/completions/lindenscoop", "lindenscoop", *words)
    return set(done.stdout.split()) | set(done.stderr.split("\n")) - {""}


def test_bash(prefix, _):
    options, serial, every = command_words(prefix)
    same("bash: commands", completed(prefix, ""), {*COMMANDS, "help", "--help", "--version"})
    same("bash: a command begun", completed(prefix, "li"), {"listen"})
    same("bash: help", completed(prefix, "help", ""), set(COMMANDS))
    for name in COMMANDS:
        same(f"bash: options of {name}", completed(prefix, name, "-"), options[name])
        takes_form = name in ("write", "simulate")
        same(f"bash: first word of {name}", completed(prefix, name, ""), set(every) if takes_form else {"files"})
        if "--form" in options[name]:
            same(f"bash: forms of {name}", completed(prefix, name, "--form", ""), set(serial))
            same(f"bash: forms of {name} behind =", completed(prefix, name, "--form", "="), set(serial))
            same(f"bash: a form of {name} begun", completed(prefix, name, "--form", "=", "sta"), {"standard"})
        for option in ("--record", "--to", "--svg"):
            if option in options[name]:
                same(f"bash: {name} {option}", completed(prefix, name, option, ""), {"files"})
    same("bash: files of write", completed(prefix, "write", "racal", ""), {"files"})
    for option in ("--baud", "--framing"):
        offered = completed(prefix, "listen", option, "")
        check(f"bash: {option}", len(offered) > 5, offered)
        for value in offered:
            status = run(prefix / "bin/lindenscoop", "listen", "-", "--form", "1", option, value).returncode
            same(f"{option} {value} is taken", status, 1)
    bound = run("bash", "-c", 'source "$1"; complete -p lindenscoop', "bash", prefix / "share/bash-completion/completions/lindenscoop").stdout
    same("bash: bound", bound, "complete -F _lindenscoop lindenscoop\n")


def test_zsh_text(prefix, _):
    options, serial, every = command_words(prefix)
    text = (prefix / "share/zsh/site-functions/_lindenscoop").read_text()
    check("zsh: bound", text.startswith("#compdef lindenscoop\n"), text[:40])
    same("zsh: forms", re.search(r"serial=\((.*)\)\n\s*all=\(\$serial (.*)\)", text).groups(), (" ".join(serial), other_forms(serial, every)))
    same("zsh: commands", re.findall(r'(\w+)\\:"', text), [*COMMANDS, "help"])
    port = set(re.findall(r"'(--[a-z]+)=", re.search(r"port=\((.*?)\n    \)", text, re.S)[1]))
    for name in COMMANDS:
        part = re.search(rf"^        {name}\)\n(.*?);;", text, re.S | re.M)[1]
        offered = set(re.findall(r"(--[a-z]+)[=\[]", part)) | (port if "$port" in part else set())
        same(f"zsh: options of {name}", offered, options[name])
        lists = {"--form" in options[name]: "$serial", name in ("write", "simulate"): "$all"}
        same(f"zsh: forms of {name}", re.findall(r"form:\((.*?)\)", part), [lists[True]] if True in lists else [])


def test_fish_text(prefix, _):
    options, serial, every = command_words(prefix)
    text = (prefix / "share/fish/vendor_completions.d/lindenscoop.fish").read_text()
    same("fish: forms", re.search(r"set -l serial (.*)\nset -l all \$serial (.*)\n", text).groups(), (" ".join(serial), other_forms(serial, every)))
    same("fish: commands", re.findall(r"-n __fish_use_subcommand -f -a (\w+)", text), [*COMMANDS, "help"])
    rows = re.findall(r"^complete -c lindenscoop(?: -n '__fish_seen_subcommand_from ([a-z ]+)')?(?= -[fla])(.*)$", text, re.M)
    for name in COMMANDS:
        of_name = [row for names, row in rows if not names or name in names.split()]
        same(f"fish: options of {name}", {"--" + word for row in of_name for word in re.findall(r" -l (\w+)", row)}, options[name])
        same(f"fish: forms of {name}", [word for row in of_name for word in re.findall(r'-a "\$(serial|all)"', row)],
             ["serial"] if "--form" in options[name] else ["all"] if name in ("write", "simulate") else [])


# ---- make ----


def test_uninstall(_, work):
    """In a folder of its own, with files of others in it, and after Python stored its own."""
    prefix = work / "other folder"
    foreign = ["bin/other", f"lib/{PYTHON}/site-packages/other/__init__.py", "share/man/man3/other.3"]
    for name in foreign:
        (prefix / name).parent.mkdir(parents=True, exist_ok=True)
        (prefix / name).touch()
    words = (f"DESTDIR={prefix}", "PREFIX=")
    check("installed beside others", make("install", *words).returncode == 0)
    same("all installed", listed(prefix), sorted(expected() + foreign))
    same("Python there", imported(prefix / f"lib/{PYTHON}/site-packages")[:2], ["None", "2000"])
    check("Python stored", (prefix / f"lib/{PYTHON}/site-packages/lindenscoop/__pycache__").is_dir())
    done = make("uninstall", *words)
    same("uninstall", (done.returncode, listed(prefix)), (0, sorted(foreign)))
    check("the module's folder is gone", not (prefix / f"lib/{PYTHON}/site-packages/lindenscoop").exists())
    same("uninstalled twice", make("uninstall", *words).returncode, 0)


def test_destdir(_, work):
    """Folders of a package: nothing goes to the prefix itself, which the files name."""
    base = f"{work}/nowhere"
    words = (f"DESTDIR={work}/package", f"PREFIX={base}", f"libdir={base}/lib64/sub", f"mandir={base}/man", f"pythondir={base}/py")
    done = make("install", *words)
    check("install with DESTDIR", done.returncode == 0, done.stderr)
    check("nothing in the prefix itself", not os.path.exists(base))
    packed = pathlib.Path(f"{work}/package{base}")
    same("the files of a package", listed(packed), expected("py", "lib64/sub", "man"))
    same("no others", len(listed(f"{work}/package")), len(expected()))
    text = (packed / "lib64/sub/pkgconfig/lindenscoop.pc").read_text()
    check("the prefix in lindenscoop.pc", f"prefix={base}\nlibdir=${{prefix}}/lib64/sub\nincludedir=${{prefix}}/include\n" in text, text)
    same("Python in a package", imported(packed / "py")[:2], ["None", "2000"])
    same("uninstall of a package", (make("uninstall", *words).returncode, listed(f"{work}/package")), (0, []))


def test_without_python(_, work):
    words = (f"DESTDIR={work}/plain", "PREFIX=", "PYTHON=/none")
    done = make("install", *words)
    same("left out", (done.returncode, "the Python module is left out" in done.stdout), (0, True))
    same("the files without Python", listed(work / "plain"), [name for name in expected() if PYTHON not in name])
    same("uninstall without Python", (make("uninstall", *words).returncode, listed(work / "plain")), (0, []))


def test_rebuilding(_, __):
    same("nothing to do", make("-q", "all").returncode, 0)
    crate = next((ROOT / "crates/lindenscoop/src").glob("*.rt")).relative_to(ROOT)
    for changed, proves, builds in (("crates.txt", True, True), (crate, True, True), ("command/src/main.rs", False, True), ("README.md", False, False)):
        told = make("-n", "-W", changed, "all").stdout
        same(f"{changed} changed", ("scripts/build lindenscoop_c" in told, "cargo build" in told), (proves, builds))
    same("check", make("-n", "check").stdout, ".ci/run\n")


def is_repository():
    done = run("git", "-C", ROOT, "rev-parse", "--show-prefix") if shutil.which("git") else None
    return bool(done) and done.returncode == 0 and not done.stdout.strip()


def test_dist(_, work):
    """The committed files, the same bytes twice; where this is no repository only what is said then can be tried, below."""
    if not is_repository():
        print("test-install: no git repository here, so that no archive is made")
        return
    made = []
    settings = {"GIT_CONFIG_COUNT": "1", "GIT_CONFIG_KEY_0": "tar.umask", "GIT_CONFIG_VALUE_0": "user"}
    for name, mask, also in (("first", 0o022, {}), ("second", 0o077, {"TZ": "Asia/Tokyo", **settings})):
        (work / name).mkdir()
        done = make("dist", f"distdir={work / name}", also=also, preexec_fn=lambda: os.umask(mask))
        check("make dist", done.returncode == 0, done.stderr)
        made.append(work / name / f"lindenscoop-{VERSION}.tar.gz")
    check("the same archive twice", made[0].read_bytes() == made[1].read_bytes())
    same("no name and no time in its head", made[0].read_bytes()[3:8], bytes(5))
    same("nothing beside it", listed(work / "first"), [made[0].name])
    with tarfile.open(made[0]) as archive:
        names = {item.name for item in archive if not item.isdir()}
        makefile = archive.extractfile(f"lindenscoop-{VERSION}/Makefile").read().decode()
        runs = archive.getmember(f"lindenscoop-{VERSION}/scripts/version").mode
    committed = run("git", "ls-tree", "-r", "-z", "--name-only", "HEAD", cwd=ROOT).stdout.split("\0")[:-1]
    same("the files of the archive", names, {f"lindenscoop-{VERSION}/{name}" for name in committed})
    same("Makefile in the archive", makefile, run("git", "show", "HEAD:Makefile", cwd=ROOT).stdout)
    same("a script's mode in the archive", oct(runs), "0o755")


def fresh_tree(work):
    """What somebody has who unpacked the archive: no target/, no crates/*/out, no repository."""
    tree = work / "outer/tree"
    shutil.copytree(ROOT, tree, ignore=shutil.ignore_patterns("target", "out", ".git", "__pycache__", "*.tar.gz"), symlinks=True)
    return tree


def few_tools(work):
    """A folder for PATH that has neither kit nor cargo."""
    folder = work / "tools"
    folder.mkdir()
    for name in ("find", "sed", "dirname", "rm"):
        (folder / name).symlink_to(shutil.which(name))
    return {"PATH": str(folder)}


def test_fresh_tree(_, work):
    tree, tools, maker = fresh_tree(work), few_tools(work), shutil.which("make")
    done = run(maker, "-C", tree, env=tools)
    check("no kit", done.returncode == 2 and "Rattle kit is needed" in done.stderr and "on PATH:" in done.stderr, done)
    static = tree / "target/staticlib/liblindenscoop.a"
    static.parent.mkdir(parents=True)
    shutil.copyfile(ROOT / "target/staticlib/liblindenscoop.a", static)
    same("a library that is newer than its sources", run(maker, "-C", tree, "-q", "target/staticlib/liblindenscoop.a", env=tools).returncode, 0)
    done = run(maker, "-C", tree, "target/cargo/release/lindenscoop", env=tools)
    check("no cargo", done.returncode == 2 and "cargo is needed" in done.stderr, done)
    kept = listed(tree)
    same("clean", (run(maker, "-C", tree, "clean", env=tools).returncode, listed(tree)), (0, [n for n in kept if not n.startswith("target/")]))
    for name, also in ("no repository", {"GIT_CEILING_DIRECTORIES": str(work)}), ("another repository above", {}):
        if also or run("git", "init", "-q", work / "outer").returncode == 0:
            done = make("dist", tree=tree, also=also)
            check(f"dist: {name}", done.returncode == 2 and "Clone the repository" in done.stderr, done)
            check(f"dist: {name}, nothing made", not list(tree.glob("*.tar*")))


def attempt(test, *words):
    try:
        test(*words)
    except Exception:
        check(test.__name__, False, traceback.format_exc())


def main():
    with tempfile.TemporaryDirectory() as folder:
        work = pathlib.Path(folder).resolve()
        prefix = work / "prefix"
        done = make("install", f"PREFIX={prefix}")
        check("make install", done.returncode == 0, done.stdout + done.stderr)
        if done.returncode == 0:
            for name, test in list(globals().items()):
                if name.startswith("test_") and name in (sys.argv[1:] or [name]):
                    attempt(test, prefix, work)
    print(f"{counts[True]} passed, {counts[False]} failed")
    return 1 if counts[False] or not counts[True] else 0


if __name__ == "__main__":
    sys.exit(main())
