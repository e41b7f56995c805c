"""The scripts of hosts that crates/test_ends plays, by the second reading that writes them, with the bytes of what was read in place of
their listing; and the same played by the Python package."""
from readings import write_hosts

_SCRIPTS = {}


class _Script(write_hosts.Script):
    """A script that is kept, and not written to a file."""

    def ended(self, host, file):
        if host.outcome == 0:
            assert host.read == file
            self.lines.append(f"file -> {file.hex()}")

    def write(self, name):
        _SCRIPTS[name] = "\n".join(self.lines) + "\n"


def scripts():
    """The scripts, by their names."""
    if not _SCRIPTS:
        write_hosts.Script = _Script
        for write in (write_hosts.whole, write_hosts.hostile, write_hosts.malformed, write_hosts.reasons, write_hosts.forgiving):
            write()
    return _SCRIPTS


class Player:
    """The lines of a script by the Python package."""

    def __init__(self):
        self.host, self.transactions = None, 0

    def due(self):
        """What is due, or how the host ended."""
        from nozzlegorse.faults import Fault

        due = self.host.next()
        if due == "ended":
            counts = f"attempts {self.host.attempts} transactions {self.transactions}"
            try:
                self.host.outcome()
                return f"success {counts}"
            except Fault as trouble:
                return f"trouble {trouble.number} {trouble.step} {counts}"
        if due == "reset":
            return due
        return f"send {due.address} " + {"setup": f"setup {due.setup_bytes.hex()}", "in": "in", "out": f"out data{due.toggle} {due.data.hex() or '-'}"}[due.stage]

    def open(self, words):
        """A host of such words."""
        from nozzlegorse.ends import Host

        given = dict(zip(words[2::2], words[3::2]))
        choice = {"strings": given["strings"]} if "strings" in given else {}
        choice |= {"other_speed": given["other_speed"] == "yes"} if "other_speed" in given else {}
        self.host, self.transactions = Host(int(given["address"]), int(given["naks"]), int(given["attempts"]), words[1], **choice), 0

    def take(self, words):
        """A reply."""
        from nozzlegorse.ends import Reply, Transaction

        self.transactions += isinstance(self.host.next(), Transaction)
        data = words[0].startswith("data")
        self.host.take(Reply("data", int(words[0][4:]), bytes.fromhex(words[1].replace("-", ""))) if data else Reply(words[0]))

    def play(self, line):
        """What comes of a step."""
        words = line.split()
        if line == "forgiven":
            return ", ".join(f"{it.number} {it.step}" for it in self.host.forgiven) or "none"
        if line == "file":
            return self.host.outcome().hex()
        if words[0] == "host":
            self.open(words)
        elif line == "reset_done":
            self.host.reset_done()
        else:
            self.take(words)
        return self.due()


def played_by_python(name):
    """A script as the package plays it, and as it is."""
    player, script = Player(), scripts()[name]
    lines = [line.partition(" -> ") for line in script.splitlines()]
    return "".join(f"{step}{arrow}{player.play(step) if arrow else ''}\n" for step, arrow, _ in lines), script
