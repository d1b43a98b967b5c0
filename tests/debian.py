"""A Debian in a folder, booted by systemd-nspawn with a network of its own, and a shell of root in
it that goes on from step to step, as one at a keyboard would."""

import os
import select
import signal
import subprocess
import time
from collections.abc import Callable

# The most seconds to wait for the boot, for a step, and for what comes about in it.
BOOT, STEP, PATIENCE = 300, 1200, 300
MARK = "--- done ---"
NSPAWN = ["systemd-nspawn", "--quiet", "--register=no", "--keep-unit", "--private-network"]
# Without this systemd there can't bound addresses and ports.
NSPAWN += ["--system-call-filter=bpf", "--boot"]
SPACES = ["--mount", "--uts", "--ipc", "--net", "--pid", "--cgroup", "--root"]
PLAIN = ["env", "-i", "-C", "/root", "HOME=/root", "LANG=C.UTF-8", "DEBIAN_FRONTEND=noninteractive"]
PLAIN += ["PATH=/usr/local/sbin:/usr/local/bin:/usr/sbin:/usr/bin:/sbin:/bin"]
# Where groups of processes are made, on a machine of either kind. Each Debian has one of its own,
# so that two of them at once don't meet.
TREES = ["/sys/fs/cgroup/systemd", "/sys/fs/cgroup/unified", "/sys/fs/cgroup"]


class Failed(Exception):
    """A step failed, or something isn't as it has to be."""


def need(holds: object, said: object) -> None:
    if not holds:
        raise Failed(str(said))


class Group:
    """A group of processes of this script's own."""

    def __init__(self) -> None:
        trees = [tree for tree in TREES if os.path.exists(f"{tree}/cgroup.procs")]
        self.paths = [f"{tree}/hall-{os.getpid()}" for tree in trees]

    def enter(self) -> None:
        """Has this process in it."""
        for path in self.paths:
            os.makedirs(path, exist_ok=True)
            with open(f"{path}/cgroup.procs", "w", encoding="ascii") as processes:
                processes.write("0")

    def remove(self) -> None:
        for path in self.paths:
            for folder, _, _ in os.walk(path, topdown=False):
                os.rmdir(folder)


class Debian:
    """A booted Debian. `run` asks one command of it, `step` goes on in the shell that it has."""

    def __init__(self, folder: str, log: str):
        self.folder = folder
        self.log = log
        self.group = Group()
        self.begin()

    def begin(self) -> None:
        with open(self.log, "ab") as log:
            self.nspawn = subprocess.Popen(
                [*NSPAWN, "-D", self.folder],
                stdin=subprocess.DEVNULL,
                stdout=log,
                stderr=log,
                preexec_fn=self.group.enter,
            )
        self.leader = int(self.wait("the first process", self.find_leader))
        self.wait("the end of the boot", self.is_booted, BOOT)
        self.shell = subprocess.Popen(
            [*self.enter(), "/bin/bash", "-e"],
            stdin=subprocess.PIPE,
            stdout=subprocess.PIPE,
            stderr=subprocess.STDOUT,
        )

    def find_leader(self) -> str:
        """The first process there, once it is systemd."""
        need(self.nspawn.poll() is None, f"no boot: see {self.log}")
        task = f"/proc/{self.nspawn.pid}/task/{self.nspawn.pid}"
        with open(f"{task}/children", encoding="ascii") as children:
            found = children.read().split()
        for child in found:
            with open(f"/proc/{child}/comm", encoding="ascii") as name:
                if name.read() == "systemd\n":
                    return child
        return ""

    def is_booted(self) -> bool:
        return self.run("systemctl is-system-running || true").strip() in ("running", "degraded")

    def enter(self) -> list[str]:
        """The words that run a command there, as root with a plain environment."""
        return ["nsenter", f"--target={self.leader}", *SPACES, *PLAIN]

    def run(self, command: str, status: int | None = None) -> str:
        """What a command prints on both outputs; its status is compared where one is given."""
        said = subprocess.run(
            [*self.enter(), "sh", "-c", command],
            stdout=subprocess.PIPE,
            stderr=subprocess.STDOUT,
            timeout=STEP,
        )
        text = said.stdout.decode(errors="replace")
        need(
            status is None or said.returncode == status,
            f"{command}\nended with {said.returncode} for {status}:\n{text}",
        )
        return text

    def step(self, commands: str) -> str:
        """Goes on in the shell, which answers a question by Enter. Says what was printed; a command
        that fails ends the shell."""
        with open(f"{self.folder}/root/step", "w", encoding="utf-8") as file:
            file.write(commands)
        stdin, stdout = self.shell.stdin, self.shell.stdout
        assert stdin and stdout
        stdin.write(f". /root/step < <(yes '' | head -n 20)\necho; echo '{MARK}'\n".encode())
        stdin.flush()
        text, end = "", time.monotonic() + STEP
        while not text.endswith(f"\n{MARK}\n"):
            got = b""
            if select.select([stdout], [], [], max(0, end - time.monotonic()))[0]:
                got = os.read(stdout.fileno(), 65536)
            text += got.decode(errors="replace")
            need(got, f"a step failed, or took more than {STEP} s:\n{commands}\nsaid\n{text}")
        return text.removesuffix(f"\n{MARK}\n")

    def wait(self, said: str, holds: Callable[[], object], seconds: int = PATIENCE) -> str:
        """Waits until something holds, which is then given back."""
        end = time.monotonic() + seconds
        while not (found := holds()):
            need(time.monotonic() < end, f"not within {seconds} s: {said}")
            time.sleep(0.2)
        return str(found)

    def end(self) -> None:
        """Ends it in good order."""
        self.shell.kill()
        self.shell.wait()
        self.run("systemctl poweroff --no-block || true")
        self.nspawn.wait(BOOT)

    def kill(self) -> None:
        """Ends what is left of it, at once."""
        if self.nspawn.poll() is None:
            os.kill(self.leader, signal.SIGKILL)
            self.nspawn.wait(BOOT)
        self.group.remove()
