"""What the commands come to over readers and writers that fail once, and would go on.

A read that fails ends a command at once: nothing is written, and the reader isn't asked again. A read that gives nothing
is the end of the input. A write that fails or takes nothing ends it too, and a flush that fails comes after the whole
output.
"""

from readings import refusing

STEPS = [1, 7, 4096]
FAULTS = ["fails", "interrupted", "nothing"]
READ_FAILED, WRITE_FAILED = "usbdesc: read failed", "usbdesc: write failed"


def pieces(b, step):
    return [b[place : place + step] for place in range(0, len(b), step)]


def reads(command, b, step):
    """What each call of a reader gives. `show` asks for the first two bytes one by one, since they tell what the input
    is. The last call gives nothing."""
    alone = 2 if command == "show" else 0
    return pieces(b[:alone], 1) + pieces(b[alone:], step) + [b""]


def readers(command, b):
    """For each reader what it is, and the answer of the command."""
    for step in STEPS:
        calls = reads(command, b, step)
        for fault in FAULTS:
            for count in range(len(calls) + 1):
                given = b"".join(calls[:count])
                if fault == "nothing" or count == len(calls):
                    answer = refusing.answer(command, given)
                else:
                    answer = 3, b"", READ_FAILED
                yield f"{step} a call, {fault} after {count}, {len(b) - len(given)} left, 0 calls behind\n", *answer


def writers(command, b):
    """For each writer what it is, and the answer of the command."""
    status, texts, errors = refusing.texts(command, b)
    output = b"".join(texts)
    for step in STEPS:
        calls = [piece for text in texts for piece in pieces(text, step)]
        for fault in FAULTS:
            taken = 0
            for count in range(len(calls)):
                yield f"{step} a call, {fault} after {count}, 0 calls behind\n", 3, output[:taken], WRITE_FAILED
                taken += len(calls[count])
            yield f"{step} a call, {fault} after {len(calls)}, 0 calls behind\n", status, output, errors
        # Of an input at fault nothing is written and nothing flushed, but where it is explained.
        answer = (3, output, WRITE_FAILED) if status < 3 or output else (status, output, errors)
        yield f"{step} a call, no flush after 0, 0 calls behind\n", *answer
