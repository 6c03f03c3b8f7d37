"""A project's folder of the test's own, with the tools as they are, three crates, and programs in the place of rt: nothing is proved here."""
import os
import shutil
import signal
import subprocess
import sys
import time

import support

KIT = "a-kit-1 logic 0123456789abcdef"
# What another machine than x86-64 needs is left out.
with open(os.path.join(support.ROOT, "tools", "machine"), encoding="utf-8") as file:
    MACHINE = "run=()\nprogram_needs=()\n# sources" + file.read().partition("# sources")[2]
# rt as it is after a good proof: it works in a crate's folder and leaves there what it made; the program refuses every job with 6. rt run says
# on standard error what is not the program's.
PROVES = """
crate=${PWD##*/}
echo "$crate: $*" >> ../../asked
mkdir -p out
echo "fn $crate::f: proved" >&2
if [ "$1" = run ]; then
    printf '#!/bin/sh\\necho 6 0 -\\n' > out/$crate && chmod +x out/$crate
    exec out/$crate
fi
echo archive > out/lib$crate.a
"""
# rt as it starts provers: in a process group of their own, which is ended as soon as rt is gone, however it went. What they print goes to rt.
GOES_ON = """
exec python3 -c '
import os, subprocess
ends, held = os.pipe()
guard = subprocess.Popen(["sh", "-c", "read _; kill -9 0"], stdin=ends, stdout=subprocess.DEVNULL, preexec_fn=os.setpgrp)
prover = subprocess.Popen(["sleep", "300"], stdout=subprocess.PIPE, preexec_fn=lambda: os.setpgid(0, guard.pid))
with open("begun", "w") as file:
    file.write(str(prover.pid))
os.rename("begun", "../../prover")
prover.communicate()
'
"""
# rt as it would be if it started them beside it, where they ignore Ctrl-C, and with their output in a file.
GOES_ON_BESIDE = """
(sleep 300; echo never) > ../../said 2>&1 &
echo $! > begun
mv begun ../../prover
wait
"""


class RootTest(support.DeskTest):
    def setUp(self):
        super().setUp()
        self.root = self.path("a root")
        for name in ("tools", "desk"):
            shutil.copytree(os.path.join(support.ROOT, name), os.path.join(self.root, name))
        for name in ("cells", "sealjob", "auraski"):
            os.makedirs(os.path.join(self.root, "crates", name))
        os.makedirs(os.path.join(self.root, "bin"))
        self.put("tools/machine", MACHINE)
        self.put("crates.txt", "# two crates for each\nsealjob: cells std\nauraski staticlib: cells\ncells: # alone\n")
        self.put("crates/cells/lib.rt", "one")
        self.put("crates/sealjob/stdin", "a job")
        self.put("crates/sealjob/stdout", "6 0 -\n")
        self.put("kit.txt", KIT + "\n")
        self.rt(PROVES)

    def at(self, name):
        return os.path.join(self.root, name)

    def put(self, name, text):
        self.write(self.at(name), text)

    def rt(self, script, kit=KIT):
        self.put("bin/rt", f"#!/bin/sh\n[ \"$1\" != version ] || exec echo '{kit}'\n{script}")
        os.chmod(self.at("bin/rt"), 0o755)

    def asked(self):
        """What rt was asked to prove, and in which crate's folder."""
        return self.read(self.at("asked")).decode().splitlines() if os.path.exists(self.at("asked")) else []

    def alone(self, *names):
        """A PATH on which these commands are, and no other."""
        os.makedirs(self.path("alone"), exist_ok=True)
        for name in names:
            os.symlink(sys.executable if name == "python3" else shutil.which(name), self.path(os.path.join("alone", name)))
        return self.path("alone")

    def environment(self, path=None, program=""):
        path = path or f"{self.at('bin')}{os.pathsep}{os.environ['PATH']}"
        return {**os.environ, "SEALJOB": program, "PATH": path}

    def tool(self, name, *words, path=None, program=""):
        return subprocess.run([self.at(f"tools/{name}"), *words], cwd=self.folder, env=self.environment(path, program), timeout=100,
                              stdin=subprocess.DEVNULL, stdout=subprocess.PIPE, stderr=subprocess.PIPE, text=True)

    def stopped(self, number, group, name, *words, script=GOES_ON):
        """A tool, stopped while a prover runs: its status, what it said, and whether the prover still runs."""
        self.rt(script)
        process = subprocess.Popen(
            [self.at(f"tools/{name}"), *words], cwd=self.folder, env=self.environment(), stdin=subprocess.DEVNULL,
            stdout=subprocess.PIPE, stderr=subprocess.PIPE, text=True, start_new_session=True,
            # a shell that starts the tests in the background has its children ignore it
            preexec_fn=lambda: signal.signal(signal.SIGINT, signal.default_int_handler),
        )
        while not os.path.exists(self.at("prover")) and process.poll() is None:
            time.sleep(0.02)
        (os.killpg if group else os.kill)(process.pid, number)
        said = process.communicate(timeout=50)
        return process.returncode, said, self.runs(int(self.read(self.at("prover"))))

    def runs(self, number):
        """Whether a process is there, and not only waiting for its status to be taken."""
        try:
            with open(f"/proc/{number}/stat", encoding="ascii") as file:
                return file.read().rpartition(")")[2].split()[0] not in "ZX"
        except FileNotFoundError:
            return False
