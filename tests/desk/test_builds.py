"""tools/program and tools/library: what is current, why nothing was built, which kit it was, and that a stop ends the provers."""
import fcntl
import os
import signal
import subprocess

import roots
import support
from roots import KIT

BUILT = {"program": "target/bin/sealjob", "library": "target/staticlib/libauraski.a"}
# What rt is asked for: the code is for any x86-64, as the header says.
ASKED = {"program": ["cells: lib", "sealjob: run --cpu=x86-64"], "library": ["cells: lib", "auraski: lib --cpu=x86-64"]}


class Builds(roots.RootTest):
    def test_built(self):
        for name, asked in ASKED.items():
            ended = self.tool(name)
            self.assertEqual((ended.returncode, ended.stderr, self.asked()), (0, "", asked))
            self.assertIn(f"\nproved 1 of 2: cells\nproved 2 of 2: {asked[1].partition(':')[0]}\n", ended.stdout)
            self.assertTrue(ended.stdout.endswith(f" {BUILT[name]}\n"), ended.stdout)
            self.assertTrue(self.read(self.at(f"target/{name}.log")).startswith(b"fn cells::f: proved\nfn "))
            os.unlink(self.at("asked"))

    def test_what_rt_made(self):
        self.tool("program")
        self.assertEqual(self.read(self.at("target/bin/sealjob")), self.read(self.at("crates/sealjob/out/sealjob")))
        self.assertTrue(os.access(self.at("target/bin/sealjob"), os.X_OK))
        self.tool("library")
        self.assertEqual(self.read(self.at("target/staticlib/libauraski.a")), b"archive\n")

    def test_each_behind_those_under_it(self):
        """Whatever the order of the lines in crates.txt."""
        self.put("crates.txt", "sealjob: top one\ntop: one two\ntwo : one cells # and no more\none: cells\n\ncells:\nother: cells\n")
        for name in ("one", "two", "top"):
            os.makedirs(self.at(f"crates/{name}"))
        self.assertIn("proving 5 crates", self.tool("program").stdout)
        self.assertEqual([line.partition(":")[0] for line in self.asked()], ["cells", "one", "two", "top", "sealjob"])

    def fails(self, sentence, script=None, name="program"):
        """Status 1, the sentence last, and no stamp."""
        if script is not None:
            self.rt(script)
        ended = self.tool(name)
        self.assertEqual(ended.returncode, 1, ended)
        self.assertEqual(ended.stderr.splitlines()[-1], f"{name}: not built: {sentence}")
        self.assertFalse(os.path.exists(self.at(BUILT[name] + ".stamp")))
        return ended.stderr

    def test_no_room(self):
        self.put("target", "in the way")
        self.fails("the folder target can't be made: File exists")
        self.fails("the folder target can't be made: File exists", name="library")
        os.unlink(self.at("target"))
        os.mkdir(self.at("target"))
        self.put("target/bin", "in the way")
        self.fails("target/bin/sealjob can't be written: File exists", name="program")

    def test_no_log(self):
        os.mkdir(self.at("target"))
        os.symlink("/dev/full", self.at("target/program.log"))
        self.fails("target/program.log can't be written: No space left on device")
        os.makedirs(self.at("target/library.log"))
        self.fails("target/library.log can't be written: Is a directory", name="library")

    def test_the_system_refuses(self):
        """It is the cause of what rt says after it."""
        line = "OSError: [Errno 28] No space left on device: 'out/incremental'"
        self.fails(f"the system refused something, which is the first cause: {line}; the whole log is target/program.log",
                   f'echo "{line}" >&2; exit 1')

    def test_not_proved(self):
        for said, status, sentence in (
            ("logic=not-proved", 1, "the crate cells is not proved"),
            ("logic=no-verdict", 3, "the prover could not tell whether the crate cells is proved"),
            ("nothing", 247, "the prover was killed at the crate cells, as happens where memory runs out"),
            ("nothing", 137, "the prover was killed at the crate cells, as happens where memory runs out"),
            ("rt: crates.txt: a is not listed", 2, "rt ended with status 2 at the crate cells and said: crates.txt: a is not listed"),
            ("rt: chose --jobs 2 for cells", 2, "rt ended with status 2 at the crate cells"),
            ("nothing", 7, "rt ended with status 7 at the crate cells"),
        ):
            with self.subTest(said):
                shown = self.fails(f"{sentence}; the whole log is target/program.log", f"echo 'error: why'; echo '{said}'; exit {status}")
                self.assertIn("error: why\n", shown)

    def test_the_crate_itself_is_not_proved(self):
        for name, crate in (("program", "sealjob"), ("library", "auraski")):
            self.fails(f"the crate {crate} is not proved; the whole log is target/{name}.log",
                       f"case $PWD in */cells) {roots.PROVES} ;; *) exit 1 ;; esac", name=name)

    def test_its_run_fails(self):
        """The program is built, and does not print what is stored for it; or does, and ends with another status."""
        for printed, status in (("6 0", 0), ("6 0 -", 1)):
            self.fails("the crate sealjob is proved, and its program's run failed; the whole log is target/program.log",
                       f"mkdir -p out; touch out/sealjob; [ $1 = lib ] || {{ echo {printed}; exit {status}; }}")

    def test_it_is_run_on_what_is_stored(self):
        self.put("crates/sealjob/stdout", "a job")
        self.rt("mkdir -p out; echo one > out/sealjob; [ $1 = lib ] || cat")
        self.assertEqual(self.tool("program").returncode, 0)

    def test_nothing_came_of_it(self):
        self.put("crates/sealjob/stdout", "")
        self.fails("rt ended well, and there is no crates/sealjob/out/sealjob; the whole log is target/program.log", "exit 0")

    def test_no_such_crate(self):
        self.put("crates.txt", "cells:\n")
        self.fails("crates.txt does not name the crate sealjob")

    def test_an_old_file_does_not_pass(self):
        self.tool("program")
        self.fails("the crate cells is not proved; the whole log is target/program.log", "exit 1")
        self.assertFalse(os.path.exists(self.at("target/bin/sealjob")))
        self.assertFalse(os.path.exists(self.at("crates/sealjob/out/sealjob")))

    def test_one_after_the_other(self):
        os.mkdir(self.at("target"))
        with open(self.at("target/turn"), "w", encoding="ascii") as turn:
            fcntl.flock(turn, fcntl.LOCK_EX)
            building = subprocess.Popen([self.at("tools/program")], env=self.environment(), stdout=subprocess.PIPE, text=True)
            self.assertEqual(building.stdout.readline(), "program: another build is going on in this folder; waiting for its end ..\n")
            self.assertEqual(self.asked(), [])
        self.assertIn("proved 2 of 2: sealjob\n", building.communicate(timeout=50)[0])
        self.assertEqual((building.returncode, self.asked()), (0, ASKED["program"]))

    def test_what_another_built_meanwhile(self):
        self.tool("program")
        with open(self.at("target/turn"), "w", encoding="ascii") as turn:
            fcntl.flock(turn, fcntl.LOCK_EX)
            building = subprocess.Popen([self.at("tools/program")], env=self.environment(), stdout=subprocess.PIPE, text=True)
            building.stdout.readline()
        self.assertEqual((building.communicate(timeout=50)[0], building.returncode, self.asked()), ("", 0, ASKED["program"]))

    def test_rt_forgets_what_it_built(self):
        """A program that was removed or changed, also what rt has of it."""
        for name in ("target/bin/sealjob", "crates/sealjob/out/sealjob"):
            self.tool("program")
            before = self.read(self.at("target/bin/sealjob"))
            self.put(name, "another")
            self.tool("program")
            self.assertEqual(self.read(self.at("target/bin/sealjob")), before)

    def test_stopped(self):
        for name, number, group, ends in (
            ("program", signal.SIGINT, True, -signal.SIGINT), ("library", signal.SIGTERM, False, -signal.SIGTERM),
            ("program", signal.SIGQUIT, True, 128 + signal.SIGQUIT),
        ):
            for script in (roots.GOES_ON, roots.GOES_ON_BESIDE):
                status, said, runs = self.stopped(number, group, name, script=script)
                self.assertEqual((status, said[1], runs), (ends, "", False))
                os.unlink(self.at("prover"))


class Current(roots.RootTest):
    def current(self, name, path=None):
        words = ["bash", "-c", '. tools/machine; current "$1"', "bash", BUILT[name]]
        return subprocess.run(words, cwd=self.root, env=self.environment(path), stderr=subprocess.DEVNULL).returncode == 0

    def test_by_contents(self):
        for name, file in BUILT.items():
            self.assertFalse(self.current(name))
            self.tool(name)
            self.assertTrue(self.current(name))
            self.changed_and_back(name, "crates/cells/lib.rt")
            self.changed_and_back(name, "crates.txt")
            self.changed_and_back(name, file)
            self.changed_and_back(name, file + ".stamp")

    def changed_and_back(self, name, file):
        """Times don't count; contents do, also where the time is the old one."""
        before, times = self.read(self.at(file)), os.stat(self.at(file))
        for text in (before + b"more\n", b""):
            self.put(file, text)
            os.utime(self.at(file), ns=(times.st_atime_ns, times.st_mtime_ns))
            self.assertFalse(self.current(name), file)
        os.unlink(self.at(file))
        self.assertFalse(self.current(name), file)
        self.put(file, before)
        self.assertTrue(self.current(name), file)

    def test_by_names(self):
        self.tool("program")
        self.put("crates/cells/more.rt", "")
        self.assertFalse(self.current("program"))
        os.unlink(self.at("crates/cells/more.rt"))
        self.assertTrue(self.current("program"))
        os.rename(self.at("crates/cells/lib.rt"), self.at("crates/cells/main.rt"))
        self.assertFalse(self.current("program"))
        os.rename(self.at("crates/cells/main.rt"), self.at("crates/cells/lib.rt"))
        self.assertTrue(self.current("program"))

    def test_what_rt_leaves_does_not_count(self):
        """It is in out/ of a crate's folder, and nowhere else."""
        self.tool("program")
        self.put("crates/cells/out/more", "")
        self.assertTrue(self.current("program"))
        os.makedirs(self.at("crates/cells/src/out"))
        self.put("crates/cells/src/out/more.rt", "")
        self.assertFalse(self.current("program"))

    def test_by_kit(self):
        self.tool("program")
        self.rt(roots.PROVES, "a-kit-2 logic 0123456789abcdef")
        self.assertFalse(self.current("program"))

    def test_without_a_kit(self):
        """A program that was built by the kit that kit.txt names needs none to be run."""
        self.tool("program")
        path = self.alone("bash", "find", "sort", "xargs", "sha256sum", "cut", "cat")
        self.assertTrue(self.current("program", path))
        self.put("kit.txt", "another\n")
        self.assertFalse(self.current("program", path))


class Kit(roots.RootTest):
    def refused(self, sentence, path=None):
        for name in BUILT:
            ended = self.tool(name, path=path)
            self.assertEqual((ended.returncode, ended.stdout, self.asked()), (2, "", []), ended)
            self.assertIn(sentence, ended.stderr)
            self.assertEqual(ended.stderr.count("\n"), 1)

    def test_its_file(self):
        """One line, as `rt version` prints it."""
        with open(os.path.join(support.ROOT, "kit.txt"), encoding="ascii") as file:
            self.assertRegex(file.read(), r"\A[a-z0-9-]+ logic [0-9a-f]{16}\n\Z")

    def test_another_logic(self):
        self.rt(roots.PROVES, "a-kit-1 logic 0000")
        self.refused("setup: this kit, 'a-kit-1 logic 0000', has another logic than the one that kit.txt names, "
                     f"'{KIT}', and what is proved is relative to the logic. Install that kit; or write this one's line into kit.txt and run")

    def test_another_name(self):
        self.rt(roots.PROVES, "a-kit-2 logic 0123456789abcdef")
        ended = self.tool("program")
        self.assertEqual(ended.returncode, 0)
        self.assertEqual(ended.stderr, f"setup: this kit is 'a-kit-2 logic 0123456789abcdef', and kit.txt names '{KIT}'; "
                         "the logic is the same, so it goes on\n")

    def test_none(self):
        self.refused("setup: rt, the command of Rattle's kit, is not on the PATH; kit.txt names the kit", self.alone("bash", "dirname"))

    def test_unnamed(self):
        for script in ("exit 1", "exit 0"):
            self.put("bin/rt", f"#!/bin/sh\n{script}\n")
            self.refused("setup: `rt version` failed")
        os.unlink(self.at("kit.txt"))
        ended = self.tool("program")
        self.assertEqual(ended.returncode, 2)
        self.assertIn("setup: kit.txt, which names Rattle's kit, can't be read\n", ended.stderr)
