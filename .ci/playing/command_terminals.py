"""The command at a terminal: colours, pager and width, by a pseudo-terminal."""

import fcntl
import os
import pty
import select
import shutil
import struct
import subprocess
import termios

RED, YELLOW, BOLD, OFF = b"\x1b[31m", b"\x1b[33m", b"\x1b[1m", b"\x1b[m"


def at_terminal(words, columns=80, lines=400, typed=b"", **more):
    """What a command writes at a terminal of this size, its status, and its standard error, which is none."""
    outer, inner = pty.openpty()
    fcntl.ioctl(inner, termios.TIOCSWINSZ, struct.pack("HHHH", lines, columns, 0, 0))
    environment = {name: value for name, value in os.environ.items() if name not in ("NO_COLOR", "COLUMNS", "PAGER", "LESS", "GITHUB_ACTIONS", "GITLAB_CI")}
    environment |= {"TERM": "xterm", "PAGER": "cat", **more}
    with subprocess.Popen(words, stdin=inner, stdout=inner, stderr=subprocess.PIPE, env=environment, start_new_session=True) as ran:
        os.close(inner)
        os.write(outer, typed)
        came = b""
        while select.select([outer], [], [], 30)[0]:
            try:
                came += os.read(outer, 65536)
            except OSError:
                break
        errors = ran.stderr.read()
    os.close(outer)
    return came.replace(b"\r\n", b"\n"), ran.returncode, errors


def without_colours(text):
    """The text alone."""
    for it in (RED, YELLOW, BOLD, b"\x1b[32m", OFF):
        text = text.replace(it, b"")
    return text


def wrong(command, testdata, sysfs):
    """What isn't as it must be at a terminal, a line each."""
    broken, remarked, large = (f"{testdata}/{it}" for it in ("mistakes/05-nep.bin", "mistakes/09-hid-after-ep.bin", "dumps/sunplus-camera.descriptors"))
    plain = subprocess.run([*command, "explain", broken], capture_output=True).stdout

    def says(what, holds):
        if not holds:
            yield what

    came, status, errors = at_terminal([*command, "explain", broken])
    yield from says(f"explain at a terminal: {came[:300]} {status} {errors}", (status, errors) == (0, b"") and without_colours(came) == plain)
    yield from says("a finding isn't red", b"      " + RED + b"! V5 bNumEndpoints" in came)
    yield from says("a heading isn't bold, or a field is", BOLD + b"interface 0 alternate 0" in came and b"        bInterfaceNumber       0\n" in came)
    came, *_ = at_terminal([*command, "explain", remarked])
    yield from says("a remark isn't yellow", YELLOW + b"? " in came)
    came, *_ = at_terminal([*command, "check", broken, remarked])
    yield from says("check has no colours", RED + b"byte 27" in came and YELLOW + b"byte 43" in came)
    for more in ({"NO_COLOR": "1"}, {"TERM": "dumb"}):
        came, *_ = at_terminal([*command, "explain", broken], **more)
        yield from says(f"colours with {more}", came == plain)
    came, *_ = at_terminal([*command, "explain", broken], NO_COLOR="")
    yield from says("an empty NO_COLOR means something", RED in came)
    yield from says("colours into a pipe", b"\x1b" not in plain)
    yield from pagers(command, large, says)
    yield from widths(command, sysfs, says)


def pagers(command, large, says):
    """The pager: that of PAGER, less where it isn't set, none with --no-pager."""
    whole = subprocess.run([*command, "explain", large], capture_output=True).stdout
    came, status, _ = at_terminal([*command, "explain", large], PAGER="sed s/^/=/")
    yield from says(f"no pager: {came[:80]} {status}", status == 0 and without_colours(came).startswith(b"=device and its sets"))
    came, status, errors = at_terminal([*command, "explain", "/no/such"], PAGER="sed s/^/=/")
    yield from says(f"nothing for a pager: {came} {status} {errors}", (came, status) == (b"", 2) and errors.endswith(b"No such file or directory\n"))
    came, *_ = at_terminal([*command, "explain", "--no-pager", large], PAGER="sed s/^/=/")
    yield from says("a pager with --no-pager", without_colours(came) == whole)
    for pager in ("", "cat", "/no/such/pager"):
        came, status, errors = at_terminal([*command, "explain", large], PAGER=pager)
        yield from says(f"PAGER={pager}: {status} {errors}", (without_colours(came), status, errors) == (whole, 0, b""))
    came, status, errors = at_terminal([*command, "explain", *[large] * 20], PAGER="head -n 1")
    yield from says(f"a pager that ends early: {status} {errors}", status in (0, 141) and errors == b"" and came.count(b"\n") == 1)
    came, status, errors = at_terminal([*command, "explain", large, "/no/such"], PAGER="sed s/^/=/")
    yield from says(f"a line of standard error at a pager: {errors}", status == 2 and errors == b"nozzlegorse: /no/such: No such file or directory\n")
    if shutil.which("less"):
        came, status, _ = at_terminal([*command, "explain", large], lines=24, typed=b"q", PAGER="less")
        yield from says(f"less: {status}", status in (0, 141) and 10 < came.count(b"\n") < 60)


def widths(command, sysfs, says):
    """No line of `list` is wider than the terminal, as long as what is found fits."""
    words = [*command, "list", "--sysfs", sysfs]
    for columns in (60, 80, 200):
        came, *_ = at_terminal(words, columns)
        longest = max(len(line.decode()) for line in without_colours(came).splitlines())
        yield from says(f"a line of {longest} characters in {columns} columns", longest <= columns)
    for more, columns in (({"COLUMNS": "60"}, 200), ({"COLUMNS": "20"}, 200), ({}, 20), ({}, 1), ({}, 0)):
        came, status, errors = at_terminal(words, columns, **more)
        yield from says(f"{columns} columns and {more}: {status} {errors}", (status, errors) == (0, b"") and b"1 finding" in came)
