"""The firmware in QEMU, as a device for the bench:

    PYTHONPATH=examples/firmware FIRMWARE=mouse.elf python3 -m nozzlegorse.bench in_qemu:Firmware mouse.file --losses 1 --within 40

Run itself it enumerates the firmware, and prints its first reports.
"""

import os
import subprocess
import tempfile

from nozzlegorse import ends

SEMIHOSTING = ["-nographic", "-monitor", "none", "-serial", "none", "-semihosting-config", "enable=on,target=native", "-kernel"]
# What runs a program, by the processor that its head names. One for this machine runs as it is, over the model of a peripheral.
RUN_BY = {40: ["qemu-system-arm", "-M", "mps2-an386", "-cpu", "cortex-m4", *SEMIHOSTING], 243: ["qemu-system-riscv32", "-M", "virt", "-bios", "none", *SEMIHOSTING], 62: []}
RESET, TRANSACTION, ACKED = range(3)
STAGES = {"setup": 0, "in": 1, "out": 2}
REPLIES = ("ack", "nak", "stall", "data", "silence")


def run_by(firmware):
    with open(firmware, "rb") as program:
        return [*RUN_BY[program.read(20)[18]], firmware]


class Firmware:
    """Endpoint zero of the firmware, which ends with the pipe."""

    def __init__(self):
        self.folder = tempfile.TemporaryDirectory()
        for name in ("to_device", "from_device"):
            os.mkfifo(f"{self.folder.name}/{name}")
        self.qemu = subprocess.Popen(run_by(os.path.abspath(os.environ["FIRMWARE"])), cwd=self.folder.name, stdin=subprocess.DEVNULL)
        self.out = open(f"{self.folder.name}/to_device", "wb", buffering=0)
        self.into = open(f"{self.folder.name}/from_device", "rb")

    def close(self):
        self.out.close()
        self.qemu.wait(timeout=10)
        self.into.close()
        self.folder.cleanup()

    def tell(self, kind, address=0, stage=0, toggle=0, data=b""):
        self.out.write(bytes([kind, address, stage, toggle, len(data)]) + data)

    def answer(self):
        reply, toggle, length = self.into.read(3)
        return ends.Reply(REPLIES[reply], toggle, self.into.read(length)) if REPLIES[reply] == "data" else ends.Reply(REPLIES[reply])

    def reset(self):
        self.tell(RESET)

    def transaction(self, it, ready):
        if not ready and it.stage != "setup":
            return ends.NAK
        self.tell(TRANSACTION, it.address, STAGES[it.stage], it.toggle or 0, bytes(it.setup_bytes if it.stage == "setup" else it.data))
        return self.answer()

    def acked(self):
        self.tell(ACKED)

    def report(self, address):
        """The packet of endpoint 1, or nothing where there is none yet."""
        self.tell(TRANSACTION, address, 3)
        answer = self.answer()
        return answer.data if answer.kind == "data" else None


def enumerated(firmware):
    """The file that a host of the library reads, or None where it gives up."""
    host = ends.Host()
    while True:
        due = host.next()
        if due == "reset":
            firmware.reset()
            host.reset_done()
        elif isinstance(due, str):
            return host.outcome()
        else:
            reply = firmware.transaction(due, True)
            if reply.kind == "data":
                firmware.acked()
            host.take(reply)


def main():
    firmware = Firmware()
    print(f"read {len(enumerated(firmware))} bytes")
    polled = [firmware.report(1) for _ in range(40)]
    print("reports:", *(it.hex() for it in polled if it))
    firmware.close()


if __name__ == "__main__":
    main()
