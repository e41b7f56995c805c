"""What is typed to `nozzlegorse.usbip`, what it says at the start and what its README has people type. `.ci/callers` runs it."""
import contextlib
import glob
import io
import os
import re
import shlex
import socket
import subprocess
import sys
import tempfile

from nozzlegorse import usbip
from usbip_client import MOUSE, MOUSE_ANSWERS, Feed, Host, bytes_of, end, same, served

HUB, ACM, KEYS = "testdata/files/qemu-usb-hub.file", "testdata/files/gadget-acm.file", "testdata/binding/qemu-usb-keyboard.file"
DUMP = "testdata/dumps/matias-keyboard.descriptors"
PROGRAM = [sys.executable, "-m", "nozzlegorse.usbip"]
README = bytes_of("examples/usbip/README.md").decode()
ATTACH = "sudo modprobe vhci_hcd; sudo usbip attach -r 127.0.0.1 -b 1-1"


def said(*words):
    """What is said at the start at these ports, which are not listened to."""
    def stop(bridge):
        raise KeyboardInterrupt

    was, out = (usbip.Bridge.listen, usbip.Bridge.step), io.StringIO()
    usbip.Bridge.listen, usbip.Bridge.step = lambda bridge, kind, port: port, stop
    try:
        with contextlib.redirect_stdout(out):
            usbip.main(words=list(words))
    finally:
        usbip.Bridge.listen, usbip.Bridge.step = was
    return out.getvalue().splitlines()


def starts():
    """What to type next, for each device."""
    same("what to type next", said(MOUSE), [f"{MOUSE} at full speed: {ATTACH}"])
    same("what to type next", said(MOUSE, "--speed", "high", "--feed", "4000"), ["lines as 'feed 81 0105fb00' are taken at port 4000", f"{MOUSE} at high speed: {ATTACH}"])
    same("what to type next", said(MOUSE, HUB, "--port", "3241"), [f"{file} at full speed: sudo modprobe vhci_hcd; sudo usbip --tcp-port 3241 attach -r 127.0.0.1 -b {bus_id}"
                                                                 for file, bus_id in ((MOUSE, "1-1"), (HUB, "1-2"))])
    with served(MOUSE, HUB) as it:
        lines = it.settled().splitlines()
        # Where it says so, and under the bus ids that it says, there are these devices.
        same("lines at the start", [len(lines), it.address], [3, "127.0.0.1"])
        for file, line in zip((MOUSE, HUB), lines[1:]):
            host = Host(it, line.split()[-1])
            same("what is attached then", host.control("8006000100001200"), bytes_of(file)[:18])


def options_of_files():
    """A speed and answers are of the file before them, in any order of options and files; before the first file they are its own, and a
    speed of each that has none. Where packets are too long for full speed, high is taken."""
    def speeds(*words):
        return [line.split(" speed: ")[0].split(" at ")[1] for line in said(*words)]

    for words, wanted in (([MOUSE, KEYS], "full full"), ([MOUSE, "--speed", "high", KEYS], "high full"), ([MOUSE, KEYS, "--speed", "high"], "full high"), (["--speed", "high", MOUSE, KEYS], "high high"), (["--speed=high", MOUSE, KEYS, "--speed=full"], "high full"),
                          ([ACM], "high"), ([MOUSE, ACM], "full high"), ([ACM, "--speed", "high", MOUSE], "high full"), (["--quiet", MOUSE, "--speed", "high", "--data", "--port", "0", KEYS], "high full"), (["--", MOUSE, KEYS], "full full")):
        same("speeds of files", (words, speeds(*words)), (words, wanted.split()))
    mouse, hub = MOUSE_ANSWERS, "testdata/answers/qemu-usb-hub.full.txt"
    for words in ([MOUSE, "--answers", mouse, HUB, "--answers", hub], ["--answers", mouse, MOUSE, HUB, "--answers", hub], [MOUSE, "--speed", "full", "--answers", mouse, "--quiet", HUB, "--speed", "full", "--answers", hub]):
        with served(*words) as it:
            one, two = Host(it, "1-1"), Host(it, "1-2")
            for host in (one, two):
                host.control("0009010000000000")
            same("answers of files", [len(it.control(setup) or b"") for setup in ("8106002200003400", "a006002900000900") for it in (one, two)], [52, 0, 0, 9])
    # Without any, for the second file alone.
    with served(MOUSE, HUB, "--answers", hub) as it:
        host = Host(it, "1-1")
        host.control("0009010000000000")
        same("answers of files", host.control("8106002200003400"), None)


def drivers():
    """What is said of a dump: what drivers ask that it doesn't have, but for what is answered."""
    def asked(*words):
        return [it.split(": a driver asks ")[1].removesuffix(", which a dump doesn't have: --answers") for it in said(*words) if ": a driver asks " in it]

    for name, wanted in ((DUMP, ["810600220000, the report descriptor of interface 0", "810600220100, the report descriptor of interface 1"]), (MOUSE, ["810600220000, the report descriptor of interface 0"]),
                         (HUB, ["a00600290000, the hub descriptor"]), (ACM, []), ("testdata/binding/gadget-storage.file", []), ("testdata/binding/gadget-printer.file", []), ("testdata/binding/gadget-ecm.file", ["800606030904, string 6, the MAC address"]),
                         ("testdata/binding/gadget-ncm.file", ["a18000000000, the NTB parameters of interface 0", "800606030904, string 6, the MAC address"]),
                         ("testdata/binding/gadget-rndis.file", ["210000000000, a message of RNDIS to interface 0", "a10100000000, a message of RNDIS of interface 0"]),
                         ("testdata/files/gadget-webcam.file", [f"{it} of PROBE at interface 1" for it in ("a18700010100, GET_DEF", "210100010100, SET_CUR", "a18100010100, GET_CUR")] + ["a10200010208, the rates of clock 8", "a10200010207, the rates of clock 7"])):
        same("what drivers ask", (name, asked(name, "--with-strings")), (name, wanted))
    with tempfile.NamedTemporaryFile("w", suffix=".txt") as file:
        file.write("8106002201** 05\n")
        file.flush()
        same("what drivers ask, of which a part is answered", asked(DUMP, "--with-strings", "--answers", file.name), ["810600220000, the report descriptor of interface 0"])
    same("what is asked of a file", asked(MOUSE), [])
    # Each device that was recorded has answers to all of it, but for what it bound without: rates, and its other configuration.
    for name in glob.glob("testdata/answers/*.txt"):
        device, speed, _ = os.path.basename(name).split(".")
        file = next(it for folder in ("files", "binding") for it in glob.glob(f"testdata/{folder}/{device}.file"))
        left = asked(file, "--with-strings", "--speed", speed, "--answers", name)
        same("what recorded answers leave", (name, [it for it in left if not re.search("rates|RNDIS", it)]), (name, []))


def named_ports():
    """--port and --feed name ports; those of a bridge that has ended may be taken at once."""
    with socket.create_server(("127.0.0.1", 0)) as one, socket.create_server(("127.0.0.1", 0)) as two:
        port, feed = one.getsockname()[1], two.getsockname()[1]
    for _ in range(2):
        it = subprocess.Popen([*PROGRAM, MOUSE, "--port", str(port), "--feed", str(feed)], stdout=subprocess.PIPE, text=True)
        lines = [it.stdout.readline(), it.stdout.readline()]
        same("named ports", [re.findall(r"port (\d+)", line) for line in lines], [[str(feed)], [str(port)]])
        it.port = port
        same("named ports", Host(it).status, 0)
        same("each line is flushed", it.stdout.readline(), "1-1 attached\n")
        it.send_signal(2)
        same("Ctrl-C", it.wait(timeout=60), 0)
        it.stdout.close()


def readme():
    """Each command of the README serves what it says, and the lines of a shell after it are those that are said or heard."""
    commands = re.findall(r"^(?:python3 )(.*)$", README, re.M)
    same("commands of the README", len(commands), 2)
    for command in commands:
        program, *words = shlex.split(command)
        module = (program, words.pop(0)) if program == "-m" else (program,)
        with served(*words, program=module) as it:
            host = Host(it)
            same("commands of the README", host.control("8006000100001200"), bytes_of(words[0])[:18])
            host.control("0009010000000000")
            if "--answers" in words:
                same("commands of the README", len(host.control("8106002200003400")), 52)
                feed = Feed(it)
                line = re.search(r"echo '(.*)' \| nc -q1 127.0.0.1 4000; sudo usbip detach -p 0", README)[1]
                feed.say(line + "\n")
                feed.hears("fed 4")
                same("commands of the README", host.read(1, 4).hex(), line.split()[-1])
    same("what the README has people type", [it in README for it in (ATTACH + "; sleep 1; lsusb -t", "sudo apt install usbip usbutils netcat-openbsd")], [True, True])


def refused(wanted, *words):
    ran = subprocess.run([*PROGRAM, *words], capture_output=True, text=True, timeout=60)
    same("mistakes", (ran.returncode, ran.stdout, bool(re.fullmatch(f"nozzlegorse.usbip: {wanted}\n", ran.stderr)) or ran.stderr), (2, "", True))


def mistakes():
    """Each mistake on the command line is one line, and status 2."""
    with tempfile.TemporaryDirectory() as room, socket.create_server(("127.0.0.1", 0)) as busy:
        wrong, none, taken = f"{room}/wrong.txt", f"{room}/none", str(busy.getsockname()[1])
        with open(wrong, "w", encoding="ascii") as file:
            file.write("# none\n810600220000 01\n000500000000 done\n")
        for words, wanted in (
            ([], "the following arguments are required: FILE"), ([MOUSE, "--high"], "unrecognized arguments: --high"), ([none], f"{none}: No such file or directory"), ([room], f"{room}: Is a directory"),
            (["README.md"], r"README.md: file fault \d+ .*"), (["/dev/null"], "/dev/null: file fault .*"), (["testdata/files/every-rule-broken.file"], ".*file: description fault 1 .*"),
            ([MOUSE, "--speed", "super"], "argument --speed: invalid choice: .*"), ([MOUSE, "--speed", "low"], f"{MOUSE}: description fault 3 .*"), ([MOUSE, "--speed"], "argument --speed: expected one argument"),
            (["testdata/dumps/matias-keyboard.descriptors"], ".*descriptors: file fault .*"), (["README.md", "--with-strings"], "README.md: .*"),
            ([MOUSE, "--port", taken], f"port {taken}: Address already in use"), ([MOUSE, "--port", "0", "--feed", taken], f"port {taken}: Address already in use"),
            *(([MOUSE, option, number], f"argument {option}: invalid port value: '{number}'") for option in ("--port", "--feed") for number in ("65536", "-1", "x", "")),
            ([MOUSE, "--answers", none], f"{none}: No such file or directory"), ([MOUSE, "--answers", wrong], f"{wrong}: line 3: the device answers 000500000000 itself"),
            ([MOUSE, "--answers", MOUSE], f"{MOUSE}: line 1: .*"), ([MOUSE, "--answers", MOUSE_ANSWERS, "--answers", wrong], f"--answers is there twice, of {MOUSE}"), (["--answers", wrong, "--answers", wrong, MOUSE], "--answers is there twice, before a file"), ([MOUSE, HUB, "--speed", "full", "--speed", "full"], f"--speed is there twice, of {HUB}"),
            (["--answers", wrong, MOUSE, "--answers", wrong], f"--answers is there twice, before and after {MOUSE}"), ([MOUSE, "--speed", "full", "--answers"], "argument --answers: expected one argument"), ([MOUSE, "--", "--speed"], "--speed: No such file or directory"),
            (["testdata/files/every-rule-broken.file"], ".*every-rule-broken.file: description fault 1 .Finding., V11 at 0: there is a subclass without a class"), ([ACM, "--speed", "full"], f"{ACM}: endpoint 81 has packets of 512 bytes, too long for full speed"), (["--speed", "full", MOUSE, ACM], f"{ACM}: endpoint 81 .*"),
            ([MOUSE, "--speed=full", "--answers=" + wrong], ".*line 3.*")):
            refused(wanted, *words)


def nobody_reads():
    """Where nobody reads what is printed, it ends as quietly as by Ctrl-C."""
    read, write = os.pipe()
    it = subprocess.Popen([*PROGRAM, MOUSE, "--port", "0"], stdout=write, stderr=subprocess.PIPE)
    os.close(write)
    with open(read, encoding="ascii") as lines:
        it.port = int(re.search(r"--tcp-port (\d+)", lines.readline())[1])
    Host(it)
    _, err = it.communicate(timeout=60)
    same("a closed pipe", (it.returncode, err), (0, b""))


starts()
options_of_files()
drivers()
named_ports()
readme()
mistakes()
nobody_reads()
end()
