"""What a release has: one version everywhere, completions and man pages of each command, an installation that can be removed, and files
that a second run makes again, byte for byte.

The options that a command's help lists have to stand on its man page, and to be offered by bash, zsh and fish. What `tools/install`
puts under a prefix is compared with the list here, and is gone behind `--uninstall`, with nothing else. `tools/release` runs twice, in
two copies of the tree: the files are compared, and looked at by Debian's tools; the packages are installed into a folder and removed,
and the program of each is run. The shell lines of the workflows in share/ci are run.
"""
import ctypes
import glob
import hashlib
import os
import re
import resource
import shlex
import shutil
import subprocess
import sys
import tarfile
import zipfile

import pytest
from cases import leave_out, right, same
from needed import can_have
from shipped_launcher import wrong_alone

TOP = os.path.dirname(os.path.dirname(os.path.realpath(__file__)))
SCRIPTS = {"postcopy-session": "recorders/session", "postcopy-annotate": "share/bin/postcopy-annotate", "postcopy-report": "share/bin/postcopy-report"}
NOBODY = 65534  # a user without rights
MODULES = ("__init__", "recorder", "records", "sessions", "testing")

# What stands under a prefix, where the version is 1.2.3.
INSTALLED = f"""
    bin/postcopy bin/postcopy-annotate bin/postcopy-report bin/postcopy-session
    include/postcopy.h include/postcopy_record.h
    lib/libpostcopy.a lib/libpostcopy.so lib/libpostcopy.so.1 lib/libpostcopy.so.1.2.3 lib/pkgconfig/postcopy.pc
    libexec/postcopy/postcopy
    share/bash-completion/completions/postcopy share/bash-completion/completions/postcopy-annotate
    share/bash-completion/completions/postcopy-report share/bash-completion/completions/postcopy-session
    share/fish/vendor_completions.d/postcopy.fish share/fish/vendor_completions.d/postcopy-annotate.fish
    share/fish/vendor_completions.d/postcopy-report.fish share/fish/vendor_completions.d/postcopy-session.fish
    share/man/man1/postcopy.1 share/man/man1/postcopy-annotate.1 share/man/man1/postcopy-report.1 share/man/man1/postcopy-session.1
    share/man/man3/postcopy.3 share/man/man5/postcopy.5
    share/postcopy/postcopy.html share/postcopy/postcopy_record.c share/postcopy/python/postcopy_names.py share/postcopy/python/postcopy_outputs.py {" ".join(f"share/postcopy/python/postcopy/{it}.py" for it in MODULES)}
    share/zsh/site-functions/_postcopy
"""

def read(name, how="r"):
    with open(name if os.path.isabs(name) else f"{TOP}/{name}", how) as file:
        return file.read()


def ran(*words, **how):
    """What a command writes, with its errors behind its output, and its status."""
    child = subprocess.run(words, stdin=subprocess.DEVNULL, stdout=subprocess.PIPE, stderr=subprocess.STDOUT, **how)
    return child.stdout.decode(errors="replace"), child.returncode


def run(*words, **how):
    """What a command writes; it has to end well."""
    return subprocess.run(words, stdin=subprocess.DEVNULL, stdout=subprocess.PIPE, check=True, **how).stdout.decode()


def files_below(folder):
    """What stands below a folder, files and links."""
    return sorted(os.path.relpath(f"{at}/{it}", folder) for at, _, names in os.walk(folder) for it in names)


def folders_below(folder):
    return sorted(os.path.relpath(at, folder) for at, _, _ in os.walk(folder))

@pytest.fixture(scope="module")
def prefix(tmp_path_factory):
    """An installation."""
    at = f"{tmp_path_factory.mktemp('installed')}/prefix"
    run(f"{TOP}/tools/install", at)
    return at


@pytest.fixture(scope="module")
def commands(prefix):
    return list(commands_of(prefix))


# Those that need a copy of the tree, or the files of a release, which one process makes once.
of_a_tree = pytest.mark.xdist_group("release")


@pytest.fixture(scope="module")
def tree(tmp_path_factory):
    return copy_of_tree(f"{tmp_path_factory.mktemp('tree')}/tree")


@pytest.fixture(scope="module")
def release(tree, tmp_path_factory):
    """The files of a release."""
    at = f"{tmp_path_factory.mktemp('release')}/release"
    run(f"{tree}/tools/release", at, stderr=subprocess.DEVNULL)
    return at


# The version.


@pytest.mark.quick
@pytest.mark.cases(14)
def test_version(prefix):
    """Each place that tells the version tells the one of the file VERSION."""
    version = read("VERSION").strip()
    number = "{:d}{:02d}{:02d}".format(*map(int, version.split(".")))
    library = ctypes.CDLL(f"{prefix}/lib/libpostcopy.so")
    package = "import postcopy; print(postcopy.__version__, postcopy.version())"
    env = {**os.environ, "PYTHONPATH": f"{TOP}/bindings/python", "POSTCOPY_LIBRARY": f"{prefix}/lib/libpostcopy.so"}
    told = {
        "the program": re.findall(r"^postcopy (.*)$", run(f"{prefix}/bin/postcopy", "--version"), re.M),
        "the words of the command line": re.findall(r'^const VERSION: &str = "(.*)";$', read("crates/command_words/src/building.rt"), re.M),
        "the package for Python, and its library": run(sys.executable, "-B", "-c", package, env=env).split(),
        "the pkg-config file": re.findall(r"^Version: (.*)$", read(f"{prefix}/lib/pkgconfig/postcopy.pc"), re.M),
        "the example for Rust": re.findall(r'^version = "(.*)"$', read("bindings/rust/Cargo.toml"), re.M),
        "the changelog": re.findall(r"^## (\d\S*) - \d{4}-\d\d-\d\d$", read("CHANGELOG.md"), re.M)[:1],
        "the page": re.findall(r'<p id="version">postcopy (.*)</p>', read(f"{prefix}/share/postcopy/postcopy.html")),
    }
    for page in glob.glob(f"{TOP}/share/man/man?/*"):
        told[os.path.basename(page)] = re.findall(r'^\.TH \S+ [135] \d{4}-\d\d-\d\d "postcopy ([0-9.]+)" "', read(page), re.M)
    for place, found in told.items():
        same(f"the version that is told by {place}", set(found), {version})
    same("the number of the library and of its header", [str(library.postcopy_version()), *re.findall(r"POSTCOPY_VERSION (\d+)", read("bindings/c/postcopy.h"))], [number] * 2)
    same("the soname", f"libpostcopy.so.{version.split('.')[0]}".encode() in read(f"{prefix}/lib/libpostcopy.so", "rb"), True)


# What is installed, and removed.


@pytest.mark.cases(45)
def test_installation(prefix, room):
    """What stands under a prefix, and that nothing of it stays."""
    wanted = sorted(INSTALLED.replace("1.2.3", read("VERSION").strip()).split())
    root = f"{room}/root"
    run(f"{TOP}/tools/install", "/usr", env={**os.environ, "DESTDIR": root, "LIBDIR": "/usr/lib/here"})
    same("what is installed", files_below(prefix), sorted([*wanted, "share/postcopy/installed"]))
    same("what is installed below DESTDIR", files_below(f"{root}/usr"), sorted(re.sub("^lib/", "lib/here/", it) for it in wanted))
    same("what is below DESTDIR", os.listdir(root), ["usr"])
    run(f"{TOP}/tools/install", "/usr/local", env={**os.environ, "DESTDIR": f"{room}/local"})
    fish = [f"etc/fish/completions/{os.path.basename(it)}" for it in wanted if it.endswith(".fish")]
    same("what of /usr/local is elsewhere below DESTDIR", [it for it in files_below(f"{room}/local") if not it.startswith("usr/local/")], fish)
    same("the pkg-config file", read(f"{root}/usr/lib/here/pkgconfig/postcopy.pc").split("\n")[:2], ["prefix=/usr", "libdir=/usr/lib/here"])
    modes = {it: os.stat(f"{prefix}/{it}").st_mode & 0o777 for it in wanted}
    same("what may be run", sorted(it for it, mode in modes.items() if mode != 0o644),
         sorted(it for it in wanted if it.startswith(("bin/", "libexec/", "lib/libpostcopy.so"))))
    told_to_the_loader(room)
    removed(f"{room}/where files were")
    interrupted(room)


def interrupted(room):
    """Installations that fail while they write the list of files, or behind another that did: a removal leaves no file."""
    def stopped_by(prefix, program, words, script):
        """The status of an installation where a call of a program with words like these is the script."""
        folder = f"{room}/without-{program}"
        os.makedirs(folder)
        with open(f"{folder}/{program}", "w") as file:
            file.write(f'#!/bin/sh\nPATH={shlex.quote(os.environ["PATH"])}\ncase "$*" in {words}) {script} ;; esac\nexec {program} "$@"\n')
        os.chmod(file.name, 0o755)
        return ran(f"{TOP}/tools/install", prefix, env={**os.environ, "PATH": f"{folder}:{os.environ['PATH']}"})[1]

    for program, words, script in (("awk", "'!seen'*", 'awk "$@" | head -n 5; exit 1'), ("cp", "*/installed.new", 'head -c 100 "$1" > "$2"; exit 1'), ("mv", "*/installed", "exit 1")):
        prefix = f"{room}/by-{program}"
        run(f"{TOP}/tools/install", prefix)
        before = read(f"{prefix}/share/postcopy/installed").splitlines()
        same(f"the status where {program} fails", stopped_by(prefix, program, words, script), 1)
        same(f"what the list lacks where {program} failed", set(before) - set(read(f"{prefix}/share/postcopy/installed").splitlines()), set())
        same(f"what is beside the list where {program} failed", sorted(os.listdir(f"{prefix}/share/postcopy")), ["installed", "postcopy.html", "postcopy_record.c", "python"])
        same(f"a removal where {program} failed", (ran(f"{TOP}/tools/install", "--uninstall", prefix), os.path.exists(prefix)), (("", 0), False))
    prefix = f"{room}/cut"
    os.makedirs(f"{prefix}/share/postcopy")
    os.makedirs(f"{prefix}/bin")
    with open(f"{prefix}/share/postcopy/installed", "w") as file:
        file.write(f"file {prefix}/b")
    same("a second installation that fails", stopped_by(prefix, "install", "*/libexec/postcopy/postcopy) ;; *", "exit 1"), 1)
    same("what it left", files_below(prefix), ["libexec/postcopy/postcopy", "share/postcopy/installed"])
    same("a removal behind it", (ran(f"{TOP}/tools/install", "--uninstall", prefix)[1], files_below(prefix)), (0, []))


def told_to_the_loader(room):
    """Root has the loader told of a library in a folder that it looks into, and nobody else has."""
    os.makedirs(f"{room}/bin")
    with open(f"{room}/bin/ldconfig", "w") as file:
        file.write(f'#!/bin/sh\necho "$*" >> {room}/calls\n[ "$*" != "-v -N" ] || echo "{room}/a.b/lib: (from here)"\n')
    os.chmod(file.name, 0o755)
    asked = ["-v -N"] if os.geteuid() == 0 else []
    for name, env, wanted in (("a.b", {}, [*asked, ""] if asked else []), ("a-b", {}, asked), ("a.b", {"DESTDIR": f"{room}/below"}, [])):
        open(f"{room}/calls", "w").close()
        run(f"{TOP}/tools/install", f"{room}/{name}", env={**os.environ, "PATH": f"{room}/bin:{os.environ['PATH']}", **env})
        same(f"what is asked of ldconfig for {name} {env}", read(f"{room}/calls").splitlines(), wanted)


def removed(prefix):
    """An installation into a folder that has files, and its removal."""
    remove = f"{TOP}/tools/install", "--uninstall"
    os.makedirs(f"{prefix}/bin")
    os.makedirs(f"{prefix}/include")
    open(f"{prefix}/bin/mine", "w").close()
    before = files_below(prefix), folders_below(prefix)
    env = {**os.environ, "LIBDIR": f"{prefix}/lib/here"}
    run(f"{TOP}/tools/install", prefix, env=env)
    list_file = f"{prefix}/share/postcopy/installed"
    # a version before had another file, and the same one again
    os.mkdir(f"{prefix}/share/older")
    for it in ("share/older/file", "bin/older"):
        open(f"{prefix}/{it}", "w").close()
    with open(list_file, "a") as file:
        file.write(f"folder {prefix}/share/older\nfile {prefix}/share/older/file\nfile {prefix}/bin/older\n")
    run(f"{TOP}/tools/install", prefix, env=env)
    same("what an earlier version had alone is gone", [it for it in files_below(prefix) if "older" in it], [])
    lines = read(list_file).splitlines()
    same("lines that the list has twice", len(lines) - len(set(lines)), 0)
    same("the list of files", sorted(it[5:] for it in lines if it.startswith("file ")), sorted(f"{prefix}/{it}" for it in files_below(prefix) if it not in (*before[0], "share/postcopy/installed")))
    same("a removal below DESTDIR", ran(*remove, prefix, env={**os.environ, "DESTDIR": "/tmp"})[1], 1)
    same("a removal", ran(*remove, prefix), ("", 0))
    same("what stays of it", (files_below(prefix), folders_below(prefix)), before)
    said, status = ran(*remove, prefix)
    same("a second removal", (f"there is no {list_file}" in said, status), (True, 1))
    run(f"{TOP}/tools/install", f"{prefix}/new")
    open(f"{prefix}/new/share/mine", "w").close()
    said, status = ran(*remove, f"{prefix}/new")
    same("a removal around a file that somebody put there", (said, status, files_below(f"{prefix}/new")),
         ("".join(f"tools/install: kept {it}, which is not empty\n" for it in (f"{prefix}/new/share", f"{prefix}/new")), 0, ["share/mine"]))
    for taken in ("bin/postcopy", "lib/libpostcopy.so"):
        at = f"{prefix}/{os.path.basename(taken)}"
        os.makedirs(f"{at}/{taken}")
        said = f"tools/install: {at}/{taken} is a folder, and a file is to be put there\n"
        same(f"a folder in the place of {taken}", ran(f"{TOP}/tools/install", at), (said, 1))
        same("a removal of what was put there by then", (ran(*remove, at), files_below(at)), (("", 0), []))
    for words in (("relative",), ("/a", "/b"), ("--uninstall", "/a", "/b"), ("--remove",), ("/a\nb",), ("/a\\b",), ('/a"b',), ("/a$b",), ("/a#b",)):
        same(f"tools/install {words}", ran(f"{TOP}/tools/install", *words)[1], 2)
    same("a relative LIBDIR", ran(f"{TOP}/tools/install", "/a", env={**os.environ, "LIBDIR": "lib"})[1], 2)


@pytest.mark.quick
@pytest.mark.cases(4)
def test_odd_prefix(room):
    """An installation whose folder has a name that scripts get wrong, and several at once in it: pkg-config tells the folder, and nothing stays."""
    prefix = f"{room}/a b|c&d 'e'"
    runs = [subprocess.Popen([f"{TOP}/tools/install", prefix], stdin=subprocess.DEVNULL, stdout=subprocess.PIPE, stderr=subprocess.STDOUT) for _ in range(3)]
    same("installations at once", [(it.communicate()[0], it.returncode) for it in runs], [(b"", 0)] * 3)
    same("the files", files_below(prefix), sorted([*INSTALLED.replace("1.2.3", read("VERSION").strip()).split(), "share/postcopy/installed"]))
    if shutil.which("pkg-config"):
        flags = run("pkg-config", "--cflags", "--libs", "postcopy", env={**os.environ, "PKG_CONFIG_PATH": f"{prefix}/lib/pkgconfig"})
        same("what pkg-config tells", shlex.split(flags), [f"-I{prefix}/include", f"-L{prefix}/lib", "-lpostcopy"])
    else:
        leave_out("what pkg-config tells (there is none)")
    same("a removal", (ran(f"{TOP}/tools/install", "--uninstall", prefix), os.path.exists(prefix)), (("", 0), False))


@pytest.mark.quick
@pytest.mark.cases(2)
def test_removal_without_a_right(room):
    """A removal by a user who may not remove a folder: why it stays is told, and the status is not 0."""
    def become_nobody():
        os.setgid(NOBODY)
        os.setuid(NOBODY)

    prefix, is_superuser = f"{room}/home/prefix", os.geteuid() == 0
    os.makedirs(f"{prefix}/share/postcopy")
    with open(f"{prefix}/share/postcopy/installed", "w") as file:
        file.write(f"folder {prefix}\nfolder {prefix}/share\nfolder {prefix}/share/postcopy\n")
    os.mkdir(f"{room}/tools")  # (not every user can enter each folder that has a checkout)
    for it in ("install", "shipped.sh"):
        shutil.copy(f"{TOP}/tools/{it}", f"{room}/tools")
    os.chmod(prefix, 0o555)
    if is_superuser:
        os.chmod(room, 0o755)
        for at, _, names in os.walk(f"{room}/home"):
            for it in (at, *(f"{at}/{name}" for name in names)):
                os.chown(it, NOBODY, NOBODY)
    said, status = ran(f"{room}/tools/install", "--uninstall", prefix, preexec_fn=become_nobody if is_superuser else None)
    same("what is told", said, f"tools/install: kept {prefix}/share: Permission denied\ntools/install: kept {prefix}, which is not empty\n")
    same("the status, and what stays", (status, folders_below(prefix), files_below(prefix)), (1, [".", "share"], []))
    os.chmod(prefix, 0o755)


@of_a_tree
@pytest.mark.cases(2)
def test_library_without_room(tree):
    """A library that cannot be put into a checkout: that is told, and no part of it stays."""
    said, status = ran(f"{tree}/tools/library", restore_signals=False, preexec_fn=lambda: resource.setrlimit(resource.RLIMIT_FSIZE, (1000, resource.RLIM_INFINITY)))
    out = f"{tree}/crates/postcopy_c/out"
    same("what is told, and the status", (said.splitlines()[-1], status), (f"tools/library: {out}/libpostcopy.a could not be written", 1))
    same("what is there", os.listdir(out), [])


@pytest.mark.quick
@pytest.mark.cases(3)
def test_wheel_without_room(room):
    """A wheel that cannot be written: that is told, and the one of before stays."""
    words = sys.executable, "-B", f"{TOP}/bindings/python/wheel_of_library.py", f"{room}/wheels"
    wheel = run(*words).strip()
    before = read(f"{room}/wheels/{wheel}", "rb")
    said = ran(*words, preexec_fn=lambda: resource.setrlimit(resource.RLIMIT_FSIZE, (1000, resource.RLIM_INFINITY)))
    same("what is told, and the status", said, (f"wheel_of_library: {room}/wheels/{wheel}: File too large\n", 1))
    same("the wheel of before, and no other", (read(f"{room}/wheels/{wheel}", "rb") == before, os.listdir(f"{room}/wheels")), (True, [wheel]))
    same("a folder that is none", ran(*words[:-1], "/dev/null/wheels"), ("wheel_of_library: /dev/null/wheels: Not a directory\n", 1))


# The program of an installation.

SESSION, CERTIFICATE = (f"{TOP}/examples/handover/{it}" for it in ("session", "certificate"))


def judges(*program):
    """Whether a program judges a session of the examples."""
    return ran(*program, "check", SESSION, CERTIFICATE)


def judged(program, room):
    """The program of an installation: it judges, says how it is used, and an answer that is more than a file may have by the limit of its
    size is told, and ends it by no signal. The file stays as it was, and no other is there."""
    same(f"what {program} answers", judges(program), ("yes\n", 0))
    right(wrong_alone(program), program)
    answer, folder = read(CERTIFICATE, "rb"), f"{room}/limited"
    os.mkdir(folder)
    for most in (0, 1, len(answer) // 2, len(answer) - 1, len(answer)):
        limit = lambda: resource.setrlimit(resource.RLIMIT_FSIZE, (most, resource.RLIM_INFINITY))
        for words, name in ((("-o", "file"), "file"), ((), "standard output")):
            with open(f"{folder}/file", "wb") as file:
                file.write(b"as it was\n")
            with open(f"{folder}/file", "rb+") as file:
                child = subprocess.run([program, "certify", SESSION, *words], cwd=folder, stdin=subprocess.DEVNULL, stdout=file if not words else subprocess.PIPE,
                                       stderr=subprocess.PIPE, preexec_fn=limit)
            wanted = (0, b"") if most == len(answer) else (3, f"output\n{name}: the file would be too large\n".encode())
            left = answer if most == len(answer) else b"as it was\n" if words else answer[:most] + b"as it was\n"[most:]
            same(f"{program} {words} where a file may have {most} bytes", (child.returncode, child.stderr, os.listdir(folder), read(f"{folder}/file", "rb")), (*wanted, ["file"], left))
    shutil.rmtree(folder)


@pytest.mark.quick
@pytest.mark.cases(15)
def test_installed_program(prefix, room):
    """However the installed program is called: by its path, by links, in its folder, by another shell."""
    judged(f"{prefix}/bin/postcopy", room)
    os.symlink(f"{prefix}/bin/postcopy", f"{room}/link")
    os.symlink("link", f"{room}/again")
    os.symlink(f"{prefix}/bin", f"{room}/folder")
    for words in ((f"{room}/again",), (f"{room}/folder/postcopy",), *((*shell, f"{prefix}/bin/postcopy") for shell in (("dash",), ("bash", "--posix"), ("busybox", "sh")) if shutil.which(shell[0]))):
        same(f"what {' '.join(words)} answers", judges(*words), ("yes\n", 0))
    for words, path in ((("./postcopy", "audit"), os.environ["PATH"]), (("sh", "postcopy", "audit"), os.environ["PATH"]), (("postcopy", "audit"), f"{prefix}/bin:{os.environ['PATH']}"),
                        (("postcopy", "audit"), f":{os.environ['PATH']}")):
        said, status = ran(*words, cwd=f"{prefix}/bin", env={**os.environ, "PATH": path})
        same(f"what {words} tells with {path[:1]} first", (said.split("\n")[3], status), ("Usage: postcopy audit <SESSION>...", 2))


# Man pages and completions.


def options_of(told):
    """The options that a help of the program lists, each with its short form."""
    found = re.findall(r"^ +(?:(-\w), |    )?(--[a-z-]+)", told.partition("Options:")[2], re.M)
    return {it for pair in found for it in pair if it}


def commands_of(prefix):
    """Each command and each script that is installed, as it is typed, with the options that its help tells."""
    program = f"{prefix}/bin/postcopy"
    told = run(program, "--help")
    names = re.findall(r"^  ([a-z-]+) ", told.partition("Commands:")[2].partition("\n\n")[0], re.M)
    yield ("postcopy",), options_of(told)
    for it in names:
        if it != "help":
            yield ("postcopy", it), options_of(run(program, it, "--help"))
    for it in sorted(os.path.basename(it) for it in glob.glob(f"{prefix}/bin/postcopy-*")):
        found = re.findall(r"(?<![\w-])(--?[a-z][a-z-]*)", run(f"{prefix}/bin/{it}", "--help").replace("--complete-pages", "--complete-pages "))
        yield (it,), set(found)


@pytest.mark.quick
@pytest.mark.cases(22)
def test_man_pages(prefix, commands):
    """Each option stands on the man page of its command, as the name of an entry."""
    for words, options in commands:
        page = read(f"{prefix}/share/man/man1/{words[0]}.1")
        entries = re.findall(r"^\.TP\n(\..*)$", page.partition("\n.SH OPTIONS\n")[2].partition("\n.SH ")[0], re.M)
        told = {it for line in entries for it in re.findall(r"(?<![\w-])--?[a-zA-Z][a-z-]*", line.replace("\\-", "-").replace("\\fR", " ").replace("\\fP", " "))}
        same(f"the options of {' '.join(words)} that its man page lacks", sorted(options - told), [])
        if len(words) > 1:
            same(f"the man page's entry of {words[1]}", f'\n.BI {words[1]} "' in page, True)
    if shutil.which("mandoc") or can_have("mandoc:mandoc"):
        for page in glob.glob(f"{prefix}/share/man/man?/*"):
            same(f"what is wrong with {os.path.basename(page)}", ran("mandoc", "-T", "lint", "-W", "warning", page)[0], "")
    else:
        leave_out("the form of man pages (there is no mandoc)")


def by_bash(prefix, asked):
    script = """
        prefix=$1; shift
        source "$prefix/share/bash-completion/completions/postcopy"
        for typed; do
            read -ra COMP_WORDS <<< "$typed"
            [[ $typed != *' ' ]] || COMP_WORDS+=("")
            call=$(complete -p "${COMP_WORDS[0]}" | sed 's/.*-F \\([^ ]*\\).*/\\1/')
            COMP_WORDS[0]=$prefix/bin/${COMP_WORDS[0]}; COMP_CWORD=$((${#COMP_WORDS[@]} - 1)); COMPREPLY=()
            "$call" "${COMP_WORDS[0]}"
            printf '%s\\n' "${COMPREPLY[@]}" ''
        done
    """
    return run("bash", "-c", script, "", prefix, *asked)


def by_fish(prefix, asked):
    script = """
        set -p fish_complete_path $argv[1]/share/fish/vendor_completions.d
        set -p PATH $argv[1]/bin
        for typed in $argv[2..]
            complete -C "$typed"
            echo
        end
    """
    env = {**os.environ, "HOME": "/nonexistent", "XDG_RUNTIME_DIR": "/nonexistent"}
    return re.sub("\t.*", "", run("fish", "--no-config", "-c", script, prefix, *asked, env=env, stderr=subprocess.DEVNULL))


def by_zsh(prefix, asked):
    env = {**os.environ, "PATH": f"{prefix}/bin:{os.environ['PATH']}"}
    return run("zsh", "-f", f"{TOP}/tests/offered.zsh", f"{prefix}/share/zsh/site-functions", *asked, env=env, timeout=300)


@pytest.mark.cases(37)
@pytest.mark.parametrize("name, offered", (("bash", by_bash), ("zsh", by_zsh), ("fish", by_fish)), ids=("bash", "zsh", "fish"))
def test_completions(prefix, commands, name, offered):
    """What a shell offers behind a dash, and in the place of a value. A file is offered where there is one, and not in the place of a number."""
    if not (shutil.which(name) or can_have(f"{name}:{name}")):
        pytest.skip(f"there is no {name}")
    wanted = {"postcopy audit --format ": {"text", "json"}, "postcopy migrate --link ": {"memory", "tcp"}, "postcopy-annotate --as ": {"lines", "github", "junit", "sarif"},
              "postcopy explain --page ": set(), "postcopy explain --line ": set(), "postcopy draw --page ": set(), "postcopy-session --windows ": set(),
              "postcopy ": {words[1] for words, _ in commands if len(words) > 1} | {"help"}}
    for words, options in commands:
        wanted[f"{' '.join(words)} -"] = {it for it in options if it[1] != "-"}
        wanted[f"{' '.join(words)} --"] = {it for it in options if it[1] == "-"}
    file = f"postcopy audit {prefix}/lib/pkg"
    # (an empty line ends what is offered behind each)
    sections = "".join(f"{it}\n" if it else "\0" for it in offered(prefix, [*wanted, file]).splitlines()).split("\0")
    found = dict(zip([*wanted, file], sections))
    for typed, options in wanted.items():
        # (a shell may offer long options behind one dash, and options beside commands)
        hits = {it for it in found.get(typed, "").split("\n") if it and (it[0] == "-") == typed.endswith("-") and not (typed.endswith(" -") and it[:2] == "--")}
        # (each help tells -h, or has it without telling)
        same(f"what {name} offers behind {typed!r}", sorted(hits - {"-h"}), sorted(options - {"-h"}))
    same(f"the file that {name} offers", [os.path.basename(it.rstrip("/")) for it in found.get(file, "").split("\n") if it], ["pkgconfig"])


@pytest.mark.cases(4)
def test_fish_of_debian():
    """fish finds the completions in /usr/local, with XDG_DATA_DIRS and without, and nothing stays of them. (The folders are empty ones, in memory.)"""
    if not can_have("fish:fish") or shutil.which("fish") != "/usr/bin/fish":
        pytest.skip("there is no fish of Debian's")
    if ran("unshare", "-rm", "mount", "-t", "tmpfs", "none", "/usr/local")[1]:
        pytest.skip("no process can have mounts of its own here")
    asked = "; ".join(f"complete -C '{it}'; echo" for it in ("postcopy a", "postcopy-session --w"))
    script = """
        mount -t tmpfs none /usr/local && mount -t tmpfs none /etc/fish && "$0" /usr/local || exit
        for dirs in -uXDG_DATA_DIRS XDG_DATA_DIRS=/usr/local/share:/usr/share; do env "$dirs" fish -c "$1" 2> /dev/null; done
        "$0" --uninstall /usr/local && find /usr/local /etc/fish
    """
    env = {**os.environ, "HOME": "/nonexistent", "PATH": f"/usr/local/bin:{os.environ['PATH']}"}
    *offered, stays = re.sub("\t.*", "", run("unshare", "-rm", "sh", "-c", script, f"{TOP}/tools/install", asked, env=env, cwd="/")).split("\n\n")
    same("how often something is offered", len(offered), 4)
    for found, wanted in zip(offered, (["audit"], ["--window", "--windows"]) * 2):
        same(f"whether {wanted} is offered", [it for it in found.split("\n") if it in ("audit", "--window", "--windows")], wanted)
    same("what stays", stays.split(), ["/usr/local", "/etc/fish"])


# A release.


def copy_of_tree(place):
    """A checkout of the tree as it stands, with one commit."""
    names = run("git", "-C", TOP, "ls-files", "-z", "-co", "--exclude-standard").split("\0") if os.path.exists(f"{TOP}/.git") else files_below(TOP)
    for it in names:
        if it and os.path.lexists(f"{TOP}/{it}") and not it.startswith(".git/") and "/out/" not in it:
            os.makedirs(os.path.dirname(f"{place}/{it}"), exist_ok=True)
            shutil.copy2(f"{TOP}/{it}", f"{place}/{it}", follow_symlinks=False)
    who = {f"GIT_{it}_{what}": value for it in ("AUTHOR", "COMMITTER")
           for what, value in (("NAME", "Tests"), ("EMAIL", "tests@tests.example.org"), ("DATE", "2026-01-02T03:04:05Z"))}
    for words in (("init", "-q"), ("add", "-A"), ("commit", "-qm", "a release")):
        # (no gc behind the commit, which would move files while they are copied)
        run("git", "-C", place, "-c", "gc.auto=0", *words, env={**os.environ, **who})
    return place


@of_a_tree
@pytest.mark.cases(14)
def test_release(tree, release, room):
    """Files of a release, made twice in two places, and when none are made."""
    version, second = read("VERSION").strip(), f"{room}/a second one"
    run("git", "clone", "-q", tree, second)
    run(f"{second}/tools/release", env={**os.environ, "TZ": "Asia/Tokyo", "LC_ALL": "C.UTF-8"}, preexec_fn=lambda: os.umask(0o077))
    made = files_below(release)
    same("the files of a release", made, sorted((
        "SHA256SUMS", f"libpostcopy-dev_{version}-1_amd64.deb", f"libpostcopy1_{version}-1_amd64.deb", f"postcopy-{version}-py3-none-manylinux_2_34_x86_64.whl",
        f"postcopy-{version}-x86_64-linux.tar.gz", f"postcopy-{version}.html", f"postcopy_{version}-1_amd64.deb")))
    for it in made:
        same(f"{it}, made a second time", read(f"{second}/release/{it}", "rb") == read(f"{release}/{it}", "rb"), True)
    sums = {it: hashlib.sha256(read(f"{release}/{it}", "rb")).hexdigest() for it in made if it != "SHA256SUMS"}
    same("the digests", dict(reversed(it.split("  ")) for it in read(f"{release}/SHA256SUMS").splitlines()), sums)
    same("the tree behind a release", run("git", "-C", second, "status", "--porcelain"), "")
    refusals(second)


def refusals(tree):
    """Trees of which no release is made."""
    def says(why):
        said, status = ran(f"{tree}/tools/release", f"{tree}/2030")
        same(f"a release where {why}", (why in said, status, os.path.exists(f"{tree}/2030")), (True, 1, False))

    with open(f"{tree}/more", "w") as file:
        file.write("more\n")
    says("there are uncommitted changes")
    os.remove(f"{tree}/more")
    git = ("git", "-C", tree, "-c", "user.name=T", "-c", "user.email=t@example.org", "commit", "-qam")
    for name, old, new, why in (("VERSION", read("VERSION"), "9.9.9\n", "CHANGELOG.md has no section for 9.9.9"),
                                ("crates.txt", read("crates.txt"), read("crates.txt") + "\n", "of other sources")):
        for text, message in ((new, "changed"), (old, "back")):
            with open(f"{tree}/{name}", "w") as file:
                file.write(text)
            run(*git, message)
            if text == new:
                says(why)
    os.mkdir(f"{tree}/release/bin")
    with open(f"{tree}/release/bin/tar", "w") as file:
        file.write(f'#!/bin/sh\n{shutil.which("tar")} "$@"\necho "tar: read error" >&2\nexit 2\n')
    os.chmod(file.name, 0o755)
    said, status = ran(f"{tree}/tools/release", f"{tree}/none", env={**os.environ, "PATH": f"{tree}/release/bin:{os.environ['PATH']}"})
    same("a release of which the archive is not whole", (said, status, os.path.exists(f"{tree}/none")), ("tar: read error\n", 2, False))
    same("tools/release --help", ran(f"{tree}/tools/release", "--help")[1], 2)


# The workflows, and the container.


def shell_lines(name):
    """The lines that a workflow or a container has a shell run."""
    text = read(f"share/ci/{name}")
    return re.findall(r"^ +(?:- )?run: (.*)$|^    - (.*)$|^RUN (.*)$", text, re.M)


@of_a_tree
@pytest.mark.cases(11)
def test_workflows(tree, room):
    """The shell lines of the workflows and of the container, with folders of the test in place of those that they name. Those that
    install packages are not run."""
    os.makedirs(f"{room}/work/recorded")
    for name in ("handover", "early-access"):
        shutil.copy(f"{TOP}/examples/{name}/session", f"{room}/work/recorded/{name}.session")
    wanted = {"github.yml": [("", 0), ("", 0), ("::error file=recorded/early-access.session,line=13,title=early::", 1), ("", 0)],
              "gitlab.yml": [("", 0), ("", 1), ("", 0)], "Dockerfile": [("", 0)]}
    for name, answers in wanted.items():
        at = f"{room}/{name}"
        os.mkdir(at)
        lines = [re.sub(r"(?<= )/tmp/tingaro|/usr/local", lambda it: f"{at}/{it[0].split('/')[-1]}", "".join(it)) for it in shell_lines(name) if "apt-get" not in "".join(it)]
        if name == "Dockerfile":
            shutil.copytree(tree, f"{at}/tingaro", symlinks=True)
            lines = [it.replace("/tmp/tingaro/", f"{at}/tingaro/") for it in lines]
        env = {**os.environ, "TINGARO": f"file://{tree}", "RUNNER_TEMP": at, "HOME": f"{at}/home", "GITHUB_PATH": f"{at}/path"}
        said = []
        for line in lines:
            if os.path.exists(f"{at}/path"):
                env["PATH"] = f"{read(f'{at}/path').strip()}:{os.environ['PATH']}"
            elif os.path.exists(f"{at}/local/bin"):
                env["PATH"] = f"{at}/local/bin:{os.environ['PATH']}"
            said.append(ran("bash", "-e", "-c", line, cwd=f"{room}/work", env=env))
        same(f"what the lines of {name} come to", [(told[:len(start)], status) for (told, status), (start, _) in zip(said, answers)], answers)
        same(f"how many lines of {name} are run", len(lines), len(answers))
        if name != "Dockerfile":
            same(f"the report of {name}", b"early-access.session" in read(f"{room}/work/report.html", "rb"), True)
            os.remove(f"{room}/work/report.html")
    same("the tests that GitLab shows", [it in read(f"{room}/work/sessions.xml") for it in ('tests="2" failures="1"', 'type="early"')], [True, True])
    same("the container's program", judges(f"{room}/Dockerfile/local/bin/postcopy"), ("yes\n", 0))
    same("the container's sources", os.listdir(f"{room}/Dockerfile"), ["local"])


@pytest.mark.cases(3)
def test_workflows_as_yaml():
    """Each workflow is YAML, and has lines for a shell."""
    try:
        import yaml
    except ImportError:
        return leave_out("whether the workflows are YAML (there is no PyYAML)")
    for name in sorted(it for it in os.listdir(f"{TOP}/share/ci") if it.endswith(".yml")):
        read_as = yaml.safe_load(read(f"share/ci/{name}"))
        same(f"the lines of {name} for a shell", sorted(lines_below(read_as)), sorted("".join(it) for it in shell_lines(name)))


def lines_below(part):
    """The lines that the parts of a workflow have a shell run, as a parser of YAML reads them."""
    if isinstance(part, list):
        return [line for it in part for line in lines_below(it)]
    if not isinstance(part, dict):
        return []
    own = [line for key, its in part.items() if key in ("run", "script", "before_script", "after_script") for line in ([its] if isinstance(its, str) else its)]
    return own + [line for its in part.values() for line in lines_below(its)]


@of_a_tree
@pytest.mark.qemu
@pytest.mark.slow
@pytest.mark.cases(6)
def test_workflow_of_qemu(tree, room, program):
    """The workflow for a tree of QEMU makes a migration by what was built, and has its reports where it says that they are. This machine's
    QEMU takes the place of the one that would be built."""
    qemu = shutil.which("qemu-system-x86_64")
    if not qemu or not shutil.which("make"):
        pytest.skip("there is no QEMU here, or no make")
    os.mkdir(f"{room}/work")
    with open(f"{room}/work/configure", "w") as file:
        file.write(f"#!/bin/sh\nmkdir build\nprintf 'qemu-system-x86_64:\\n\\tln -s {qemu} build/\\n' > Makefile\n")
    os.chmod(file.name, 0o755)
    text = read("share/ci/qemu.yml")
    variables = {**dict(re.findall(r'(\w+): "([^"]*)"', re.search("^variables: (.*)$", text, re.M)[1])), "TINGARO": f"file://{tree}", "MIGRATIONS": "1", "CI_PIPELINE_ID": "4711"}
    lines = [re.sub("/tmp/tingaro", f"{room}/tingaro", "".join(it)) for it in shell_lines("qemu.yml") if "apt-get" not in "".join(it)]
    said = [ran("bash", "-e", "-c", line, cwd=f"{room}/work", env={**os.environ, **variables, "POSTCOPY": program}) for line in lines]
    if said[-1][1] == 3 and "not made" not in said[-1][0]:
        pytest.skip(said[-1][0])
    same("what comes before the migrations", said[:-1], [("", 0), (f"ln -s {qemu} build/\n", 0), ("", 0)])
    right(None if said[-1][1] in (0, 1) else said[-1], "the migrations")
    same("what GitLab keeps", re.findall(r"^    (?:reports|paths): (.*)$", text, re.M), ["{junit: migrations.xml}", "[migrations.html, migrations]"])
    same("the JUnit report", ' tests="1"' in read(f"{room}/work/migrations.xml"), True)
    same("the page", [f'id="run-0000{number}"' in read(f"{room}/work/migrations.html") for number in (0, 1)], [True, False])
    same("the folder", len(read(f"{room}/work/migrations/results").splitlines()), 1)


@of_a_tree
@pytest.mark.cases(4)
def test_archive(release, room):
    """The archive, unpacked anywhere."""
    name, = glob.glob(f"{release}/*.tar.gz")
    with tarfile.open(name) as archive:
        entries = archive.getmembers()
    same("who owns what the archive has", {(it.uid, it.gid, it.mode & 0o022, it.mtime) for it in entries}, {(0, 0, 0, 1767323045)} | {(0, 0, 0o022, 1767323045) for it in entries if it.issym()})
    run("tar", "-C", room, "-xf", name)
    at = f"{room}/{os.path.basename(name)[:-len('.tar.gz')]}"
    wanted = [*INSTALLED.replace("1.2.3", read("VERSION").strip()).split(), "LICENSE", "CHANGELOG.md"]
    same("what the archive has", files_below(at), sorted(wanted))
    judged(f"{at}/bin/postcopy", room)
    same("the program's bytes", read(f"{at}/libexec/postcopy/postcopy", "rb") == read("shipped/x86_64-linux/postcopy", "rb"), True)
    if shutil.which("pkg-config"):
        how = {**os.environ, "PKG_CONFIG_PATH": f"{at}/lib/pkgconfig"}
        found = [os.path.normpath(it[2:]) for it in run("pkg-config", "--cflags", "--libs-only-L", "postcopy", env=how).split()]
        same("the paths that pkg-config tells", found, [f"{at}/include", f"{at}/lib"])


@of_a_tree
@pytest.mark.cases(7)
def test_packages(release, room):
    """The packages for Debian: who keeps them, lintian, an installation into a folder, and its removal."""
    packages = sorted(glob.glob(f"{release}/*.deb"))
    project = read("bindings/python/pyproject.toml")
    name, mail = re.search(r'^maintainers = \[\{ name = "(.*)", email = "(.*)" \}\]$', project, re.M).groups()
    homepage = re.search(r'^Homepage = "(.*)"$', project, re.M)[1]
    for it in packages:
        same(f"who keeps {os.path.basename(it)}, and where", ran("dpkg-deb", "-f", it, "Maintainer", "Homepage"), (f"Maintainer: {name} <{mail}>\nHomepage: {homepage}\n", 0))
    if shutil.which("lintian"):
        same("lintian", ran("lintian", "--allow-root", "--tag-display-limit", "0", "--fail-on", "error,warning", *packages), ("", 0))
    else:
        leave_out("lintian (there is none)")
    if os.geteuid() or not shutil.which("dpkg"):
        leave_out("an installation of the packages (it takes the superuser, and dpkg)")
        return
    root = f"{room}/debian"
    os.makedirs(f"{root}/var/lib/dpkg/updates")
    for it in ("status", "available"):
        open(f"{root}/var/lib/dpkg/{it}", "w").close()
    dpkg = ("dpkg", f"--root={root}", "--force-depends", "--log=/dev/null")
    said, status = ran(*dpkg, "-i", *packages)
    same("an installation by dpkg", status, 0)
    if status:
        print(said)
    files = [it for it in files_below(root) if not it.startswith("var/lib/dpkg/")]
    doc = [f"share/doc/{it}/{what}" for it in ("postcopy", "libpostcopy1", "libpostcopy-dev") for what in ("changelog.Debian.gz", "changelog.gz", "copyright")]
    doc += [f"share/lintian/overrides/{it}" for it in ("postcopy", "libpostcopy1", "libpostcopy-dev")]
    wanted = [re.sub(r"^lib/", "lib/x86_64-linux-gnu/", it) for it in INSTALLED.replace("1.2.3", read("VERSION").strip()).split()]
    wanted = [f"{it}.gz" if it.startswith("share/man/") else it.replace("zsh/site-functions", "zsh/vendor-completions") for it in wanted]
    same("what the packages install", files, sorted(f"usr/{it}" for it in (*wanted, *doc)))
    told = "".join(read(it) for it in glob.glob(f"{root}/var/lib/dpkg/info/*.md5sums"))
    same("the digests of what the packages install", sorted(told.splitlines()),
         sorted(f"{hashlib.md5(read(f'{root}/{it}', 'rb')).hexdigest()}  {it}" for it in files if not os.path.islink(f"{root}/{it}")))
    judged(f"{root}/usr/bin/postcopy", room)
    for it in ("lib/x86_64-linux-gnu/libpostcopy.so.1", "lib/x86_64-linux-gnu/libpostcopy.a", "libexec/postcopy/postcopy"):
        same(f"the bytes of {it}", read(f"{root}/usr/{it}", "rb") == read(f"shipped/x86_64-linux/{os.path.basename(it).replace('.so.1', '.so')}", "rb"), True)
    first = {os.path.basename(it): read(it).split("\n")[0] for it in glob.glob(f"{root}/usr/bin/postcopy-*")}
    same("what runs the scripts", first, dict.fromkeys(SCRIPTS, "#!/usr/bin/python3"))
    said, status = ran(*dpkg, "--purge", "postcopy", "libpostcopy-dev", "libpostcopy1")
    same("a removal by dpkg", (status, "warning" in said), (0, False))
    same("what stays of the packages", [it for it in (*files_below(root), *folders_below(root)) if not f"{it}/".startswith(("./", "var/"))], [])


@of_a_tree
@pytest.mark.cases(3)
def test_wheel(release, room):
    """The wheel of an index: its tag, what it holds, and that pip takes it."""
    name, = glob.glob(f"{release}/*.whl")
    with zipfile.ZipFile(name) as wheel:
        texts = {it: wheel.read(it) for it in wheel.namelist()}
    told = {it.split("/")[1]: text.decode() for it, text in texts.items() if ".dist-info/" in it}
    same("the wheel's tag", re.findall(r"^Tag: (.*)$", told["WHEEL"], re.M), ["py3-none-manylinux_2_34_x86_64"])
    needs = [tuple(map(int, it.split(b"."))) for it in re.findall(rb"GLIBC_([0-9.]+)", texts["postcopy/libpostcopy.so"])]
    same("the newest glibc that the wheel's library takes", max(needs) <= (2, 34), True)
    same("the wheel's version", re.findall(r"^Version: (.*)$", told["METADATA"], re.M), [read("VERSION").strip()])
    if shutil.which("twine"):
        same("twine check", ran("twine", "check", "--strict", name, env={**os.environ, "NO_COLOR": "1"})[1], 0)
    else:
        leave_out("the wheel's description (there is no twine)")
    if ran(sys.executable, "-m", "pip", "--version")[1] == 0:
        words = ("-m", "pip", "install", "--quiet", "--no-index", "--no-deps", "--disable-pip-version-check", "--target", f"{room}/site", name)
        run(sys.executable, *words, env={**os.environ, "PIP_ROOT_USER_ACTION": "ignore"})
        code = f"import postcopy; print(postcopy.audit('{TOP}/examples/handover/session').is_safe, postcopy.version(), postcopy.__file__)"
        env = {it: value for it, value in os.environ.items() if it != "POSTCOPY_LIBRARY"}
        same("the package that pip installed", run(sys.executable, "-B", "-c", code, cwd=room, env={**env, "PYTHONPATH": f"{room}/site"}).split(),
             ["True", read("VERSION").strip(), f"{room}/site/postcopy/__init__.py"])
    else:
        leave_out("the wheel's installation (there is no pip)")
