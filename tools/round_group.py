"""A group of members on this machine, each a process of the built program over files of its own in one folder."""

import os
import shutil
import subprocess
import tempfile

from round_peers import HOST

MESSAGES = [b"Adjourn this week.", b"We should publish.", b""]


class Group:
    """Keys, messages and a roster of `size` members in a folder. Member I has keyI, messageI and transcriptI."""

    def __init__(self, program, port, wait, folder, size=3):
        self.program, self.port, self.wait, self.folder, self.size = program, port, wait, folder, size
        keys = [self.run("keygen", "--key", "key%d" % i, "--height", "5", "--width", "4") for i in self.numbers()]
        self.write("group.toml", b"version = 1\n" + b"".join(b'[[member]]\nkey = "%s"\n' % key.encode() for key in keys))
        self.id = bytes.fromhex(self.run("roster", "--toml", "group.toml", "--out", "roster"))
        for i in self.numbers():
            self.write("message%d" % i, MESSAGES[(i - 1) % len(MESSAGES)])

    def numbers(self):
        return range(1, self.size + 1)

    def path(self, name):
        return os.path.join(self.folder, name)

    def write(self, name, data):
        with open(self.path(name), "wb") as file:
            file.write(data)

    def read(self, name):
        with open(self.path(name), "rb") as file:
            return file.read()

    def run(self, *words):
        done = subprocess.run([self.program, *words], cwd=self.folder, capture_output=True, check=True, text=True)
        return done.stdout.strip()

    def address(self, number):
        return (HOST, self.port + number - 1)

    def addresses(self):
        return [self.address(i) for i in self.numbers()]

    def start(self, number, addresses=None, **process):
        """A member's process. Its own list of addresses may lead elsewhere than to the others."""
        return self.start_with(number, {}, addresses, **process)

    def start_with(self, number, instead, addresses=None, stdout=subprocess.PIPE, **process):
        """The same with other words behind some of the options."""
        options = {"--roster": "roster", "--key": "key%d" % number, "--round": "1", "--message": "message%d" % number,
                   "--transcript": "transcript%d" % number, "--wait": str(self.wait), **instead}
        words = ["member"] + [word for option in options.items() for word in option]
        words += ["%s:%d" % address for address in addresses or self.addresses()]
        return subprocess.Popen([self.program, *words], cwd=self.folder, stdout=stdout, stderr=subprocess.PIPE, **process)

    def judged_apart(self, transcript):
        """Status and output of `judge`, in a folder that has the roster and the transcript alone."""
        if not os.path.exists(self.path(transcript)):
            return None, "there is no " + transcript
        with tempfile.TemporaryDirectory() as folder:
            shutil.copy(self.path("roster"), os.path.join(folder, "roster"))
            shutil.copy(self.path(transcript), os.path.join(folder, "evidence"))
            words = ["judge", "--roster", "roster", "--transcript", "evidence"]
            done = subprocess.run([self.program, *words], cwd=folder, capture_output=True, text=True)
        return done.returncode, done.stdout + done.stderr


def ended(process):
    """Status and output of a member."""
    out, err = process.communicate(timeout=3600)
    return process.returncode, (out or b"").decode() + err.decode()


def all_ended(processes):
    return [ended(process) for process in processes]


def has_all_messages(text):
    """Whether these are three slots with the three messages, in some order."""
    lines = text.split("\n")[:-1]
    places = ["slot %d message" % (i + 1) for i in range(3)]
    wanted = sorted("%d %s" % (len(message), message.hex() or "-") for message in MESSAGES)
    return (len(lines) == 3 and all(line.startswith(place) for line, place in zip(lines, places))
            and sorted(line[len(places[0]) + 1:] for line in lines) == wanted)


def are_done(ends):
    return all(end == ends[0] for end in ends) and ends[0][0] == 0 and has_all_messages(ends[0][1])
