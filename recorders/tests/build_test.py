"""recorders/qemu/build without a build: names, versions, settings, and what is told where something is not there."""
import os
import subprocess
import sys
import tempfile
from unittest import mock

import releases
from roots import Missing
from versions_test import QEMU, command, program, read

build = command("build")


def of_names(tests):
    tests.wants("a build as it is", build.name_of("10.0.13", []), "10.0.13")
    tests.wants("with patches", build.name_of("10.0.13", ["/x/1-Offset.patch", "two words.diff"]), "10.0.13+1-offset+two-words")
    for full, wanted in (("1:7.2+dfsg-7+deb12u18", "7.2"), ("1:10.0.13+ds-0+deb13u1", "10.0.13"), ("1:11.1.0~rc2+ds-1", "11.1.0"), ("5.2.0-3", "5.2.0")):
        tests.wants(f"the version of {full}", build.upstream(full), wanted)


def of_apt(tests, room):
    apt = build.Apt(f"{room}/apt", "http://mirror/debian")
    lines = read(f"{room}/apt/sources.list").splitlines()
    tests.wants("the lists", [(line.split()[0], line.split()[-2]) for line in lines], [*(("deb-src", suite) for suite in build.SUITES), ("deb", "trixie")])
    with mock.patch.object(build, "run", return_value="Package: qemu\nVersion: 1:10.0.13+ds-0\n\nPackage: qemu\nVersion: 1:10.2.2+ds-1\n") as run:
        tests.wants("which there are", apt.versions(), {"10.0.13": "1:10.0.13+ds-0", "10.2.2": "1:10.2.2+ds-1"})
        said = tests.refuses("one that is not there", Missing, lambda: build.full_version(apt, "10.1.0", lambda line: None))
        asked = [call.args for call in run.call_args_list]
    tests.wants("no list of the machine is used", [{f"Dir::State::lists={room}/apt/lists", f"Dir::Etc::sourceparts={room}/apt/none"} < set(words) for words in asked], [True] * 3)
    tests.wants("the lists are downloaded first, once", [words[0] for words in asked], ["apt-cache", "apt-get", "apt-cache"])
    tests.wants("those that are there are told", said, "there is no source of QEMU 10.1.0; there are 10.0.13, 10.2.2")


def of_meson(tests, room):
    """It is unpacked once, and not installed."""
    def asked(tool, *words, folder):
        os.makedirs(f"{room}/tree/DEBIAN")
        os.makedirs(f"{room}/tree/usr/lib/python3/dist-packages/mesonbuild")
        with open(f"{room}/tree/DEBIAN/control", "w", encoding="ascii") as out:
            out.write("Package: meson\nVersion: 1.7\nArchitecture: all\nMaintainer: it\nDescription: it\n")
        subprocess.run(["dpkg-deb", "--build", f"{room}/tree", f"{folder}/meson_1.7_all.deb"], check=True, stdout=subprocess.DEVNULL)

    apt = mock.Mock(side_effect=asked)
    with mock.patch.dict(os.environ, {"XDG_CACHE_HOME": room}):
        found = [build.meson(apt, lambda line: None) for _ in range(2)]
    tests.wants("the modules", (os.listdir(found[0]), found[0] == found[1], apt.call_count), (["mesonbuild"], True, 1))


def of_a_source(tests, room):
    """A source gets what is chosen of the devices, and has no settings that it does not know."""
    os.mkdir(f"{room}/made")

    def fetch(apt, full, folder):
        os.makedirs(f"{folder}/source.new/{os.path.dirname(build.DEVICES)}")

    with mock.patch.object(build, "fetch", fetch):
        build.make_source(None, "1:1", f"{room}/made", lambda line: None)
    tests.wants("the source", ("CONFIG_I440FX=y" in read(f"{room}/made/source/{build.DEVICES}"), os.listdir(f"{room}/made")), (True, ["source"]))
    configure = program(f"{room}/made/source/configure", "echo '  live-block-migration   more'")
    tests.wants("all settings", build.settings(os.path.dirname(configure)), list(build.SETTINGS))
    program(configure, "echo")
    tests.wants("but those that are not known there", set(build.SETTINGS) - set(build.settings(os.path.dirname(configure))), {"--enable-live-block-migration"})


def of_patches(tests, room):
    """A source gets the patches in their order, and has those of the last build alone; what is put back is new to ninja."""
    os.makedirs(f"{room}/source/sub")
    file, old = f"{room}/source/sub/file", 1_000_000_000
    with open(file, "w", encoding="ascii") as out:
        out.write("a\n")
    os.utime(file, (old, old))
    patches = {}
    for name, before, after in (("one", "a", "b"), ("two", "b", "c"), ("three", "a", "d")):
        patches[name] = f"{room}/{name}.patch"
        with open(patches[name], "w", encoding="ascii") as out:
            out.write(f"--- a/sub/file\n+++ b/sub/file\n@@ -1 +1 @@\n-{before}\n+{after}\n")

    def changed(*names):
        build.change(room, [patches[name] for name in names], lambda line: None)
        return read(file)

    tests.wants("none", (changed(), os.path.getmtime(file)), ("a\n", old))
    tests.wants("two of one file", changed("one", "two"), "c\n")
    tests.wants("another", changed("three"), "d\n")
    tests.refuses("another order", Missing, lambda: changed("two", "one"))
    tests.wants("the same in their order", changed("one", "two"), "c\n")
    tests.wants("none again", (changed(), os.path.getmtime(file) > old), ("a\n", True))


def of_the_program(tests, room):
    """--qemu takes a build by its name."""
    with mock.patch.dict(os.environ, {"XDG_CACHE_HOME": room}):
        folder = f"{releases.builds()}/10.0.13+offset"
        os.makedirs(folder)
        made = program(f"{folder}/{releases.NAME}", "exit 0")
        tests.wants("its program", releases.found("10.0.13+offset"), made)
        tests.refuses("another", Missing, lambda: releases.found("10.0.13"))


def of_words(tests, room):
    done = subprocess.run([sys.executable, "-B", f"{QEMU}/build", "10.0.13", f"{room}/none.patch"], capture_output=True, text=True, env={**os.environ, "XDG_CACHE_HOME": room})
    tests.wants("a patch that is not there", (done.returncode, done.stderr), (2, f"build: {room}/none.patch is no file\n"))
    done = subprocess.run([sys.executable, "-B", f"{QEMU}/build", "10.0.13"], capture_output=True, text=True, env={**os.environ, "PATH": room})
    tests.wants("a machine without the tools", (done.returncode, "apt-get, apt-cache, dpkg-deb, dpkg-source" in done.stderr, "apt-get install --no-install-recommends dpkg-dev" in done.stderr), (3, True, True))


def run(tests):
    of_names(tests)
    for of_them in (of_apt, of_meson, of_a_source, of_patches, of_the_program, of_words):
        with tempfile.TemporaryDirectory() as room:
            of_them(tests, room)
