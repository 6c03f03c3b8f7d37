"""tools/desk, from any folder: nothing is built before a job is ready, and then once."""
import os
import signal

import roots
import support
from support import SEAL, replaced

START = "program: proving 2 crates and building target/bin/sealjob; "


class Launcher(roots.RootTest):
    def desk_tool(self, *words, **given):
        return self.tool("desk", *words, **given)

    def test_nothing_is_built_for_words(self):
        self.write("bad.sheet", "seel\n")
        for words in (["explain", "6"], ["--help"], ["seal", "--help"], [], ["seal"], ["unseal"], ["run", "none"], ["run", "bad.sheet"],
                      replaced(SEAL, "--key", "0"), replaced(SEAL, "--body", "@none"), SEAL + ["--out", "bad.sheet"],
                      SEAL + ["--job", "none/a"]):
            with self.subTest(words):
                self.desk_tool(*words)
                self.assertEqual(self.asked(), [])

    def test_built_once(self):
        ended = self.desk_tool(*SEAL)
        self.assertEqual((ended.returncode, self.asked()), (1, ["cells: lib", "sealjob: run --cpu=x86-64"]), ended)
        self.assertTrue(ended.stderr.startswith(START), ended.stderr)
        self.assertIn("\nproved 1 of 2: cells\nproved 2 of 2: sealjob\n", ended.stderr)
        self.assertTrue(ended.stdout.startswith("answer   6 0 -\n"))
        self.assertEqual(self.desk_tool(*SEAL).stderr, "")
        self.assertEqual(len(self.asked()), 2)

    def test_built_anew_if_a_crate_has_changed(self):
        self.desk_tool(*SEAL)
        self.put("crates/cells/lib.rt", "two")
        self.assertTrue(self.desk_tool(*SEAL).stderr.startswith(START))
        self.assertEqual(self.desk_tool(*SEAL).stderr, "")

    def test_not_built(self):
        """The cause, and that nothing was run; no file is left."""
        self.put("target", "in the way")
        ended = self.desk_tool(*SEAL, "--job", "a.job")
        self.assertEqual((ended.returncode, ended.stdout), (2, ""))
        self.assertEqual(ended.stderr, "program: not built: the folder target can't be made: File exists\n"
                         "desk: sealjob is not built, for the reason above, and nothing was run\n")
        self.assertEqual(os.listdir(self.folder), ["a root"])

    def test_what_runs_it_is_set_up(self):
        self.put("tools/machine", "run=()\nprogram_needs=(a-missing-emulator)\n")
        self.put("tools/setup", "#!/bin/sh\necho \"setup: missing $*\" >&2\nexit 2\n")
        ended = self.desk_tool(*SEAL)
        self.assertEqual((ended.returncode, ended.stderr), (2, "setup: missing a-missing-emulator\n"
                                                            "desk: sealjob can't be had, for the reason above, and nothing was run\n"))

    def test_changed_while_it_is_built(self):
        self.rt("echo two > ../cells/lib.rt\n" + roots.PROVES)
        ended = self.desk_tool(*SEAL)
        self.assertEqual(ended.returncode, 2)
        self.assertIn("program: not built: crates/ was changed meanwhile; run it again\n", ended.stderr)

    def test_files_of_the_callers_folder(self):
        self.write("a.sheet", support.SHEET + "expect 6\n")
        ended = self.desk_tool("run", "a.sheet")
        self.assertEqual(ended.returncode, 0, ended)
        self.desk_tool(*SEAL, "--job", "a.job")
        self.assertEqual(self.read("a.job"), support.JOB)

    def test_through_a_link(self):
        os.symlink(self.at("tools/desk"), self.at("linked"))
        self.assertEqual(self.tool("../linked", *SEAL).returncode, 1)

    def test_another_program(self):
        ended = self.desk_tool(*SEAL, program=self.stand_in("echo '1 0 -'"))
        self.assertTrue(ended.stdout.startswith("answer   1 0 -\n"))
        self.assertEqual(self.asked(), [])

    def test_nothing_is_left_behind(self):
        self.desk_tool("explain")
        self.assertNotIn("__pycache__", os.listdir(self.at("desk")))

    def test_stopped_while_it_is_built(self):
        """One sentence, the signal's own status, and no prover left: by the terminal, or by a signal to the desk alone."""
        for number, group, sentence in (
            (signal.SIGINT, True, "stopped from the keyboard"), (signal.SIGINT, False, "stopped from the keyboard"),
            (signal.SIGTERM, False, "stopped by another program"), (signal.SIGHUP, True, "stopped, for the terminal was closed"),
        ):
            with self.subTest(number=number, group=group):
                status, (shown, said), runs = self.stopped(number, group, "desk", *SEAL, "--job", "a.job")
                self.assertEqual((status, shown, runs), (-number, "", False))
                self.assertEqual(said.splitlines()[1:], [f"desk: {sentence}"])
                self.assertFalse(os.path.exists(self.path("a.job")))
                os.unlink(self.at("prover"))
