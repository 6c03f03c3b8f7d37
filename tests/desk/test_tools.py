"""Every tool answers --help and refuses unknown words, and does nothing else then; README's commands can be typed as they stand."""
import os
import re
import shutil
import subprocess

import roots
import support

NAMES = sorted(name for name in os.listdir(os.path.join(support.ROOT, "tools"))
               if os.access(os.path.join(support.ROOT, "tools", name), os.X_OK))


class Tools(roots.RootTest):
    def setUp(self):
        """Nothing is on the PATH with which a tool could build, install or fetch."""
        super().setUp()
        shutil.copy(os.path.join(support.ROOT, "tools", "machine"), self.at("tools"))
        self.few = self.alone("bash", "sh", "env", "dirname", "basename", "readlink", "sed", "uname", "python3")

    def listing(self):
        return sorted(os.path.join(folder, name) for folder, _, names in os.walk(self.folder) for name in names)

    def test_all_are_there(self):
        self.assertLessEqual({"bench", "compare", "desk", "example", "fuzz", "install", "installed", "jobs", "library", "program", "secrets",
                              "setup", "valgrind"}, set(NAMES))

    def test_help(self):
        before = self.listing()
        for name in NAMES:
            for word in ("--help", "-h"):
                with self.subTest(name, word=word):
                    ended = self.tool(name, word, path=self.few)
                    self.assertEqual((ended.returncode, ended.stderr), (0, ""))
                    self.assertIn(name, ended.stdout.split("\n")[0])
                    self.assertGreater(len(ended.stdout), 60)
        self.assertEqual(self.listing(), before)

    def test_unknown_words(self):
        before = self.listing()
        for name in NAMES:
            for words in (["--no-such-word"], ["--help-me", "too"]):
                with self.subTest(name, words=words):
                    ended = self.tool(name, *words, path=self.few)
                    self.assertEqual((ended.returncode, ended.stdout), (2, ""), ended)
                    self.assertTrue(ended.stderr.startswith(f"{name}: "), ended.stderr)
                    self.assertIn(words[0], ended.stderr)
                    self.assertEqual(ended.stderr.count("\n"), 1)
        self.assertEqual(self.listing(), before)

    def test_words_of_one_tool(self):
        for name, words, sentence in (
            ("fuzz", ["--seed"], "--seed needs a whole number"), ("fuzz", ["--seconds", "1.5"], "--seconds needs a whole number"),
            ("fuzz", ["--seed", "1", "more"], "nothing is known of 'more'"), ("install", [], "say where to"),
            ("install", ["a", "b"], "say where to"), ("jobs", ["--write", "x"], "nothing is known of '--write x'"),
        ):
            ended = self.tool(name, *words, path=self.few)
            self.assertEqual(ended.returncode, 2, ended)
            self.assertTrue(ended.stderr.startswith(f"{name}: {sentence}"), ended.stderr)


class Readme(support.DeskTest):
    def test_sixty_seconds(self):
        """Sealed, opened, refused, explained: the commands of that section, one after the other."""
        with open(os.path.join(support.ROOT, "README.md"), encoding="utf-8") as file:
            section = re.search(r"^## Sixty seconds.*?\n(.*?)^## ", file.read(), re.M | re.S)[1]
        commands = re.findall(r"^    (.*)$", section, re.M)
        os.symlink(os.path.join(support.ROOT, "tools"), self.path("tools"))
        script = "".join(f"{command}\necho \"status $?\"\n" for command in commands)
        ended = subprocess.run(["bash", "-c", script], cwd=self.folder, env={**os.environ, "SEALJOB": support.PROGRAM},
                               stdout=subprocess.PIPE, stderr=subprocess.PIPE, text=True)
        self.assertEqual(ended.stderr, "")
        self.assertEqual(re.findall(r"^answer   (\d)", ended.stdout, re.M), ["0", "0", "6"])
        self.assertEqual([status for status in re.findall(r"^status (\d+)", ended.stdout, re.M) if status != "0"], ["1"])
        self.assertIn("\nbody     24282c1e\n", ended.stdout)
        self.assertIn("\n6  not authentic\n", ended.stdout)
