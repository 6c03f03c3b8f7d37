""".ci/run: it fails where rt ci fails, where rt ci passes over an edit that shows nothing, and where a test beside it fails."""
import os
import shutil
import subprocess

import roots
import support

OK = "rt: ok; handles allowed: none; must-fail edits: 3 refused{}; every proof and must-fail edit was done in this run"
CLOSING = "4 passed, 0 failed"
# What the gate runs beside rt ci; each has a program of that name in its place.
BESIDE = ("tools/library", "tools/program", "tools/compare", "tools/bench", "tools/known", "tools/stack", "tools/header", "tools/example",
          "tools/installed", "tools/fuzz", "tools/valgrind", "tools/secrets", "tools/jobs", "tests/desk/run", "tools/desk")


class Gate(roots.RootTest):
    def setUp(self):
        super().setUp()
        shutil.copytree(os.path.join(support.ROOT, ".ci"), self.at(".ci"))
        os.makedirs(self.at("tests/desk"))
        for name in BESIDE:
            self.program(name, 'echo "$0" >> ran')
        with open(self.at("tools/machine"), "a", encoding="ascii") as file:
            file.write("rust_needs=()\n")

    def program(self, name, script):
        self.put(name, f"#!/bin/sh\n{script}\n")
        os.chmod(self.at(name), 0o755)

    def gate(self, said, status=0):
        """Where rt ci says these lines and ends with this status."""
        self.put("said", "".join(line + "\n" for line in said))
        self.rt(f"echo \"$*, in $PWD\" > asked; cat said; exit {status}")
        return subprocess.run([self.at(".ci/run")], cwd=self.folder, env=self.environment(), timeout=100, stdin=subprocess.DEVNULL,
                              stdout=subprocess.PIPE, stderr=subprocess.PIPE, text=True)

    def ran(self):
        return self.read(self.at("ran")).decode().split() if os.path.exists(self.at("ran")) else []

    def fails(self, said, rt_status, status, last, sentence=None):
        ended = self.gate(said, rt_status)
        self.assertEqual((ended.returncode, ended.stdout.splitlines()[-1]), (status, last), ended)
        if sentence:
            self.assertEqual(ended.stdout.splitlines()[-2], sentence)
        self.assertEqual(self.ran(), [])

    def test_passes(self):
        for closing in (CLOSING, f"{CLOSING} (and more)"):
            ended = self.gate(["rt: cells proved", OK.format(""), closing])
            self.assertEqual((ended.returncode, ended.stderr), (0, ""))
            self.assertEqual(ended.stdout.splitlines(), ["rt: cells proved", OK.format(""), CLOSING])
        self.assertEqual(self.asked(), [f"ci, in {self.root}"])
        self.assertEqual(sorted({name.removeprefix("./") for name in self.ran()}), sorted([*BESIDE]))

    def test_rt_ci_fails(self):
        self.fails(["rt: cells NOT PROVED", "3 passed, 1 failed"], 1, 1, "3 passed, 1 failed")
        self.fails(["rt: crates.txt is a link", "0 passed, 1 failed"], 2, 2, "0 passed, 1 failed")
        # what no word of rt's stands for
        self.fails([OK.format(""), CLOSING], 9, 9, CLOSING)
        self.fails(["killed"], 137, 137, "0 passed, 1 failed")
        self.fails([], 3, 3, "0 passed, 1 failed")

    def test_it_does_not_say_that_it_passed(self):
        sentence = "rt ci ended well without the lines that say so"
        for said in ([], [CLOSING], [OK.format("")], [OK.format(""), "3 passed, 1 failed"], [OK.format(""), CLOSING, "more"]):
            self.fails(said, 0, 1, "0 passed, 1 failed", sentence)

    def test_bad_edits(self):
        sentence = "must-fail edits are bad, as told above, and show nothing: mend them"
        for words in (", 1 bad", ", 2 of them only by a limit, 12 bad"):
            self.fails([OK.format(words), CLOSING], 0, 1, "0 passed, 1 failed", sentence)
            # what a test prints is not rt's word
            self.fails([OK.format(""), OK.format(words), CLOSING], 0, 1, "0 passed, 1 failed", sentence)
        for words in (", 0 bad", ", 2 of them only by a limit"):
            self.assertEqual(self.gate([OK.format(", 1 bad"), OK.format(words), CLOSING]).returncode, 0)

    def test_what_is_beside_fails(self):
        for name in BESIDE:
            with self.subTest(name):
                self.program(name, "exit 1")
                ended = self.gate([OK.format(""), CLOSING])
                self.assertEqual((ended.returncode, ended.stdout.splitlines()[-2:]),
                                 (1, ["the tests beside rt ci failed", "0 passed, 1 failed"]))
                self.program(name, 'echo "$0" >> ran')

    def test_another_kit(self):
        self.put("kit.txt", "a-kit-1 logic 0000\n")
        ended = self.gate([OK.format(""), CLOSING])
        self.assertEqual((ended.returncode, ended.stdout, self.asked()), (2, "", []))
