"""A room with the front as it is shipped: Debian's nginx with deploy/nginx.conf, the pages and a
running `hall serve`, in mounts and a network of its own.

Entered by `unshare --mount --net --pid --fork --kill-child --mount-proc`, so that nothing reaches
another machine, no file of this one is changed, and everything ends with the script. The paths of
the configuration are mounted over: /etc/hall, /usr/share/hall, /run, /var/log/nginx and the file
/etc/nginx/nginx.conf. Folders that weren't there are made, and removed by the script.
"""

import os
import shutil
import signal
import subprocess
import time

from clients import Hall, Wrong, plan

TOP = os.path.dirname(os.path.dirname(os.path.abspath(__file__)))
NAME = "hall.example"
# The book whose hall the front shows, the folder from which it serves what that hall wrote, and the
# settings of its screen.
BOOK = "day"
SHOWN = f"/run/hall/{BOOK}"
SETTINGS = f"/etc/hall/front/{NAME}.json"
FIRST_PORT = 8471
HALL_ID = 64800
DOORS = 2


def run(*words, **options):
    return subprocess.run(words, check=True, capture_output=True, text=True, **options).stdout


def wait_until(holds, said, seconds=20):
    """Waits until something holds. What is said where it doesn't in time may be a function."""
    end = time.monotonic() + seconds
    while not (found := holds()):
        if time.monotonic() > end:
            raise Wrong(f"not within {seconds} s: {said() if callable(said) else said}")
        time.sleep(0.05)
    return found


def mount_room():
    """Mounts of this room alone, over the folders that the configuration names.

    What lies in /etc and /usr/share is laid over first: a mount on a folder of the machine itself
    goes when anyone removes that folder, as another room may.
    """
    run("mount", "--make-rprivate", "/")
    run("mount", "-t", "tmpfs", "-o", "mode=755", "tmpfs", "/run")
    for folder in ("/etc", "/usr/share"):
        parts = [f"/run/room{folder}/{part}" for part in ("upper", "work")]
        for part in parts:
            os.makedirs(part)
        run("mount", "-t", "overlay", "-o",
            f"lowerdir={folder},upperdir={parts[0]},workdir={parts[1]}", "overlay", folder)
    for folder in ("/etc/hall", "/usr/share/hall", "/var/log/nginx"):
        os.makedirs(folder, exist_ok=True)
        run("mount", "-t", "tmpfs", "-o", "mode=755", "tmpfs", folder)
    run("mount", "--bind", f"{TOP}/deploy/nginx.conf", "/etc/nginx/nginx.conf")
    run("ip", "link", "set", "lo", "up")


def add_hall_user():
    """In this room there are a user `hall` and a group `hall-doors`, whom the walls know."""
    for path, line in (("/etc/passwd", f"hall:x:{HALL_ID}:{HALL_ID}::/var/lib/hall:/bin/false\n"),
                       ("/etc/group", f"hall:x:{HALL_ID}:\nhall-doors:x:{HALL_ID + 1}:\n")):
        with open(path, encoding="utf-8") as file:
            lines = [known for known in file if not known.startswith(("hall:", "hall-doors:"))]
        copy = f"/run/{os.path.basename(path)}"
        with open(copy, "w", encoding="utf-8") as file:
            file.writelines([*lines, line])
        run("mount", "--bind", copy, path)


def run_as_hall(program, folder):
    """A program in a folder that runs another one as the user `hall`; the folder becomes theirs."""
    path = f"{folder}/as_hall"
    with open(path, "w", encoding="ascii") as script:
        script.write("#!/bin/sh\nexec setpriv --reuid=hall --regid=hall --clear-groups"
                     f" '{program}' \"$@\"\n")
    os.chmod(path, 0o755)
    shutil.chown(folder, "hall", "hall")
    return path


def make_certificate(path, address):
    """A key and a certificate that it signs itself, as PATH.key and PATH.crt."""
    run("openssl", "req", "-x509", "-newkey", "rsa:2048", "-nodes", "-days", "2", "-subj",
        f"/CN={address}", "-addext", f"subjectAltName=DNS:{address}", "-keyout", f"{path}.key",
        "-out", f"{path}.crt")


class Front:
    """Debian's nginx over the doors, as deploy/nginx.conf says. `people` maps names to desks."""

    def __init__(self, people):
        shutil.copytree(f"{TOP}/www", "/usr/share/hall/www")
        for name in ("desks.js", "pages.js", "site.conf"):
            shutil.copy(f"{TOP}/deploy/{name}", f"/usr/share/hall/{name}")
        os.makedirs(SHOWN)
        self.passwords = {}
        self.show(NAME, BOOK, FIRST_PORT, "/etc/hall/front", people)
        self.process = None

    def show(self, address, book, port, folder, people):
        """Puts a hall at the front, whose people stand in a folder."""
        os.makedirs(folder, exist_ok=True)
        with open(f"/etc/hall/{book}.env", "w", encoding="ascii") as settings:
            settings.write(f"LANES=0\nDOORS={DOORS}\nPORT={port}\n")
        make_certificate(f"{folder}/{address}", address)
        where = os.environ | {"FRONT": folder}
        run(f"{TOP}/deploy/site", book, address, env=where)
        for name, desks in people.items():
            said = run(f"{TOP}/deploy/person", name, *map(str, desks), env=where)
            self.passwords[name] = said.strip()

    def start(self):
        self.process = subprocess.Popen(["nginx", "-g", "daemon off;"])
        wait_until(lambda: "LISTEN" in run("ss", "-ltn", "sport = :443"), "the front listens")

    def workers(self):
        with open(f"/proc/{self.process.pid}/task/{self.process.pid}/children",
                  encoding="ascii") as children:
            return set(children.read().split())

    def reload(self):
        """Has nginx read its configuration anew, until nobody goes by the old one."""
        before = self.workers()
        self.process.send_signal(signal.SIGHUP)
        wait_until(lambda: self.workers() and not self.workers() & before, "reloaded", 60)

    def stop(self):
        self.process.terminate()
        self.process.wait(20)


def make_hall(program, folder, setup, batches, book, port=FIRST_PORT):
    """A hall of lanes over named pipes and two doors, over a book."""
    if not os.path.exists(folder):
        os.mkdir(folder)
        # of whoever the program runs as
        owner = os.stat(os.path.dirname(folder))
        os.chown(folder, owner.st_uid, owner.st_gid)
    hall = Hall(program, folder, plan(setup, batches), book=book, lanes=len(batches), doors=DOORS,
                port=port, connections=999_999)
    for port in hall.ports:
        wait_until(lambda: f":{port}" in run("ss", "-ltn"), f"door {port} listens")
    return hall
