"""The users of a page's commands, who are numbers, and a `sudo` that runs a command as one of them.

A person's shell has no rights of root. `sudo` there is a script that hands its words, its folder, its environment and its
open files to the judge, by a socket in the room, and the judge runs the command as the user that the words name. What a
shell redirects is therefore opened by the person, as with the real one. Without root everything is run as one user, and
`sudo` drops its words `-u USER`.
"""

import json
import os
import socket
import stat
import subprocess
import threading

NUMBERS = {"root": 0, "alice": 64_820, "achdesk": 64_821, "achdesk-day": 64_822, "achdesk-backup": 64_823, "achdesk-inbox": 64_824}
MORE_GROUPS = {"achdesk-day": ("achdesk", "achdesk-inbox"), "achdesk-backup": ("achdesk",)}
PERSON = "alice"
HAS_USERS = os.geteuid() == 0
# Commands that take names of users, which the system does not know.
TAKE_NAMES = ("chown", "chgrp", "install")

SUDO = """#!/usr/bin/python3
import json, os, socket, sys
it = socket.socket(socket.AF_UNIX, socket.SOCK_SEQPACKET)
it.connect("{socket}")
socket.send_fds(it, [json.dumps([sys.argv[1:], os.getcwd(), dict(os.environ)]).encode()], [0, 1, 2])
sys.exit(int(it.recv(16) or b"1"))
"""
SUDO_OF_ONE_USER = """#!/bin/sh
[ "$1" != -u ] || shift 2
exec "$@"
"""
RUNUSER = """#!/bin/sh
# runuser -u USER -- COMMAND
user=$2
shift 3
exec sudo -u "$user" "$@"
"""


def rights_of(user):
    """The words of subprocess that run a command as a user; none if there is one user alone."""
    if not HAS_USERS:
        return {}
    groups = [NUMBERS[it] for it in MORE_GROUPS.get(user, ())]
    return {"user": NUMBERS[user], "group": NUMBERS[user], "extra_groups": groups}


def under_owner(path):
    """The words of a command that runs another one as the user to whom a file belongs."""
    if not HAS_USERS or not path.exists():
        return []
    owner = path.stat()
    return ["setpriv", f"--reuid={owner.st_uid}", f"--regid={owner.st_gid}", "--clear-groups", "--"]


def numbered(word):
    """A word with the number of each user that it names."""
    return ":".join(str(NUMBERS.get(it, it)) for it in word.split(":"))


class Sudo:
    """Runs commands for the shells of a room as other users."""

    def __init__(self, folder):
        self.path = folder / "sudo.socket"
        (folder / "root").mkdir(mode=0o700)
        for name, text in (("sudo", SUDO.format(socket=self.path) if HAS_USERS else SUDO_OF_ONE_USER), ("runuser", RUNUSER)):
            (folder / "bin" / name).write_text(text)
            (folder / "bin" / name).chmod(0o755)
        self.socket = socket.socket(socket.AF_UNIX, socket.SOCK_SEQPACKET)
        self.socket.bind(str(self.path))
        self.path.chmod(0o777)
        self.socket.listen()
        threading.Thread(target=self.serve, daemon=True).start()

    def serve(self):
        while True:
            try:
                client = self.socket.accept()[0]
            except OSError:
                return  # it was closed
            threading.Thread(target=self.answer, args=(client,), daemon=True).start()

    def answer(self, client):
        with client:
            asked, files, _, _ = socket.recv_fds(client, 1 << 20, 3)
            words, folder, environment = json.loads(asked)
            user, words = (words[1], words[2:]) if words[:1] == ["-u"] else ("root", words)
            if words[0] in TAKE_NAMES:
                words = [numbered(it) for it in words]
            home = self.path.parent / ("root" if user == "root" else f"var/lib/{user}")
            try:
                status = subprocess.run(words, cwd=folder, env=environment | {"HOME": str(home)}, stdin=files[0], stdout=files[1], stderr=files[2], **rights_of(user)).returncode
            except OSError as fault:
                os.write(files[2], f"sudo: {fault}\n".encode())
                status = 127
            for it in files:
                os.close(it)
            client.send(str(status).encode())

    def close(self):
        self.socket.close()


# Of each folder of a room that there is: its owner and group, its mode, and the mode of the files in it, if they are its owner's.
PLACES = (
    (".", "alice", "alice", 0o755, None),
    ("var/lib/achdesk", "achdesk", "achdesk", 0o750, 0o640),
    ("var/lib/achdesk-day", "achdesk-day", "achdesk-day", 0o711, None),
    ("var/lib/achdesk-day/inbox", "achdesk-day", "achdesk-inbox", 0o2770, 0o660),
    ("var/lib/achdesk-backup", "achdesk-backup", "achdesk", 0o750, None),
    ("etc/achdesk/keys", "root", "root", 0o711, None),
    ("ach-operator", "achdesk-day", "achdesk-day", 0o755, None),
    ("tmp", "root", "root", 0o1777, None),
)


def settle(folder):
    """Gives the folders of a room, and what the judge itself has put there, to the users of an installed desk."""
    if not HAS_USERS:
        return
    for name, user, group, mode, of_files in PLACES:
        place = folder / name
        if not place.is_dir():
            continue
        for it in (place, *place.iterdir()):
            info = it.lstat()
            if it == place or (info.st_uid == 0 and stat.S_ISREG(info.st_mode) and user != "root"):
                os.chown(it, NUMBERS[user], NUMBERS[group])
                if it == place or of_files is not None:
                    it.chmod(mode if it == place else of_files)
