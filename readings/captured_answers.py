"""Writes two recordings of packets into testdata/captures: what a device answers to the requests of USB 2.0, 9.4, right and wrong, in the states to
which they lead it. Each transfer has beside it what is to be found in it, by that section. Where the second reading (recorded.py) finds anything else
nothing is written. It shares no code with the crates.
"""

import os
import struct
import sys

from readings import recorded
from readings.captures import DEVICE, FOLDER, FRAME, SET, SETUP, asked, heard, ordered, read, refused

# Two configurations with remote wakeup. The first is self-powered. Its interface 0 has one setting, with an interrupt endpoint, 1 IN. Its
# interface 1 has two, of which the second has bulk endpoints, 2 OUT and 3 IN. The second configuration has one setting, with an isochronous endpoint, 1 IN.
# Another second one is without remote wakeup, and has a control endpoint, 4.
FIRST = bytes.fromhex("090239000201 00e032 0904000001ff000000 0705810308000a 0904010000ff000000 0904010102ff000000 07050202400000 07058302400000")
SECOND = bytes.fromhex("090219000102 00a032 0904000001ff000000 07058101000001")
PLAIN = bytes.fromhex("090219000102 008032 0904000001ff000000 07050400400000")
ADDRESS, OTHER_DEVICE = "0005070000000000", (read(0, SETUP.hex(), DEVICE), None)


def request(kind, code, value=0, index=0, length=0):
    return struct.pack("<BBHHH", kind, code, value, index, length).hex()


def status_of(part, index=0):
    """GET_STATUS of the device 0, an interface 1 or an endpoint 2 (9.4.5)."""
    return request(0x80 | part, 0, 0, index, 2)


def wakeup(is_on=True):
    """SET_FEATURE or CLEAR_FEATURE of DEVICE_REMOTE_WAKEUP (9.4.1, 9.4.9)."""
    return request(0, 3 if is_on else 1, 1)


def halt(endpoint, is_on=True):
    """SET_FEATURE or CLEAR_FEATURE of ENDPOINT_HALT."""
    return request(2, 3 if is_on else 1, 0, endpoint)


def configure(value):
    """SET_CONFIGURATION (9.4.7)."""
    return request(0, 9, value)


def setting_of(interface):
    """GET_INTERFACE (9.4.4)."""
    return request(0x81, 10, 0, interface, 1)


def choose(interface, alternate):
    """SET_INTERFACE (9.4.10)."""
    return request(1, 11, alternate, interface)


VALUE = request(0x80, 8, 0, 0, 1)


# A row is the packets of a control transfer, and the names of what is to be found in it.
def tells(setup, answer, found=None):
    return read(7, setup, bytes.fromhex(answer)), found


def done(setup, found=None):
    return ordered(7, setup), found


def stalls(setup, found=None):
    return refused(7, setup), found


def says(*sets):
    """A device says its descriptor and these configurations."""
    device = DEVICE[:17] + bytes([len(sets)])
    return [(read(7, SETUP.hex(), device), None), *((read(7, request(0x80, 6, 0x200 + at, 0, len(it)), it), None) for at, it in enumerate(sets))]


def begins(*sets):
    """A device gets its address, and says them."""
    return [(ordered(0, ADDRESS), None), *says(*sets)]


def right():
    """What a device answers, what it may answer, and what isn't compared."""
    return [
        *begins(FIRST, SECOND),
        # In the Address state a status and remote wakeup of its own, and a status of endpoint zero.
        tells(VALUE, "00"), tells(status_of(0), "0100"), tells(status_of(2), "0000"), tells(status_of(2, 0x80), "0000"),
        stalls(status_of(1)), stalls(status_of(2, 0x81)), stalls(setting_of(1)), stalls(choose(1, 1)), stalls(halt(0x81)), stalls(halt(0x81, False)),
        done(wakeup()), tells(status_of(0), "0300"),
        # SET_CONFIGURATION leaves remote wakeup as it is. The device may be powered otherwise than the configuration says.
        done(configure(1)), tells(VALUE, "01"), tells(status_of(0), "0300"), tells(status_of(0), "0200"), done(wakeup(False)), tells(status_of(0), "0000"),
        tells(status_of(1, 0), "0000"), tells(status_of(1, 1), "0000"), stalls(status_of(1, 2)), tells(setting_of(1), "00"), stalls(setting_of(2)),
        # The endpoints are those of the chosen setting.
        tells(status_of(2, 0x81), "0000"), stalls(status_of(2, 0x83)), stalls(halt(0x83)), done(choose(1, 1)), tells(setting_of(1), "01"),
        tells(status_of(2, 0x83), "0000"), done(halt(0x83)), tells(status_of(2, 0x83), "0100"), tells(status_of(2, 2), "0000"), done(halt(0x81)),
        stalls(choose(1, 2)), stalls(choose(2, 0)), tells(setting_of(1), "01"), tells(status_of(2, 0x83), "0100"),
        # SET_INTERFACE ends the halts of the interface, also with the setting that is chosen, and CLEAR_FEATURE that of an endpoint.
        done(choose(1, 1)), tells(status_of(2, 0x83), "0000"), tells(status_of(2, 0x81), "0100"), done(halt(0x81, False)), tells(status_of(2, 0x81), "0000"),
        # An endpoint is halted by itself.
        tells(status_of(2, 2), "0100"), done(halt(2, False)), tells(status_of(2, 2), "0000"),
        # SET_INTERFACE with an only setting may be refused, and so may a halt of endpoint zero.
        stalls(choose(0, 0)), done(choose(0, 0)), tells(setting_of(0), "00"), stalls(halt(0)), stalls(halt(0x80, False)),
        # SET_CONFIGURATION brings setting 0 and ends all halts, also with the value that is set. The halt of an isochronous endpoint may be refused.
        done(halt(0x81)), done(configure(1)), tells(setting_of(1), "00"), tells(status_of(2, 0x81), "0000"), stalls(status_of(2, 0x83)),
        done(configure(2)), tells(VALUE, "02"), stalls(setting_of(1)), tells(status_of(0), "0000"),
        stalls(halt(0x81)), done(halt(0x81)), tells(status_of(2, 0x81), "0100"), stalls(configure(3)), tells(VALUE, "02"),
        done(configure(0)), tells(VALUE, "00"), stalls(setting_of(0)), tells(status_of(0), "0100"), done(configure(1)),
        # Remote wakeup that one of two configurations has, and the halt of a control endpoint, may be refused.
        *begins(FIRST, PLAIN), stalls(wakeup()), done(wakeup()), tells(status_of(0), "0300"), done(configure(2)), tells(status_of(0), "0200"),
        stalls(wakeup(False)), done(wakeup(False)), tells(status_of(0), "0000"), stalls(halt(4)), done(halt(4)), tells(status_of(2, 4), "0100"),
        *begins(FIRST, SECOND), done(configure(1)),
        # A field has a value of which 9.4 says nothing.
        stalls(request(0x80, 0, 1, 0, 2)), tells(request(0x80, 0, 0, 0, 1), "01"), tells(request(0x81, 0, 0, 0x100, 2), "0100"),
        stalls(request(0x81, 10, 0, 0, 2)), stalls(request(1, 11, 0, 0x100)), tells(request(0x82, 0, 0, 0x100, 2), "0200"),
        tells(request(0x80, 8, 0, 1, 1), "02"),
        # TEST_MODE is refused, which isn't compared. A request has no end, and its state isn't known until its next address.
        stalls(request(0, 3, 2, 0x100)), tells(VALUE, "01"), (asked(7, configure(2)), None), tells(VALUE, "01"), tells(VALUE, "02"),
        tells(status_of(2, 0x81), "0200"), done(configure(1)), tells(VALUE, "00"), *begins(FIRST, SECOND), tells(VALUE, "00"),
        # A reset may be of this device.
        OTHER_DEVICE, tells(VALUE, "02"), done(choose(1, 2)), tells(status_of(1), "0100"),
        # It was configured before it said its configurations, and one of them isn't whole.
        (ordered(0, ADDRESS), None), done(configure(1)), *says(FIRST, SECOND), tells(VALUE, "00"), *begins(FIRST, SECOND[:9]), tells(VALUE, "02"),
    ]


def wrong():
    """Each answer that is wrong, in turn, and right ones between."""
    return [
        *begins(FIRST, SECOND),
        # In the Address state there are no interfaces and no endpoints but zero, and remote wakeup is off.
        tells(VALUE, "01", "C14"), tells(status_of(0), "0300", "C15"), tells(status_of(1), "0000", "C15"), tells(status_of(2, 0x81), "0000", "C15"),
        stalls(status_of(2), "C15"), tells(status_of(2, 0x80), "0001", "C15"), tells(setting_of(1), "00", "C17"),
        stalls(wakeup(), "C16"), done(wakeup()),
        # 0, another value, none, and one that no configuration has.
        done(configure(1)), tells(VALUE, "00", "C14"), tells(VALUE, "02", "C14"), tells(VALUE, "", "C14"), tells(VALUE, "03", "C12"), tells(VALUE, "01"),
        # The device's status without remote wakeup, with reserved bits, of one byte, and refused; and with it once CLEAR_FEATURE is done.
        tells(status_of(0), "0100", "C15"), tells(status_of(0), "0700", "C15"), tells(status_of(0), "0301", "C15"), tells(status_of(0), "03", "C15"),
        stalls(status_of(0), "C8"), tells(status_of(0), "0200"), tells(status_of(0), "0300"),
        stalls(wakeup(False), "C16"), tells(status_of(0), "0000", "C15"), done(wakeup(False)), tells(status_of(0), "0300", "C15"),
        # That of an interface is 0.
        tells(status_of(1, 1), "0100", "C15"), stalls(status_of(1, 1), "C15"), tells(status_of(1, 2), "0000", "C15"), tells(status_of(1, 1), "0000"),
        # A halted endpoint says so. One that isn't halted has no other bit, and one of another setting has no status.
        done(halt(0x81)), tells(status_of(2, 0x81), "0000", "C15"), tells(status_of(2, 0x81), "0100"), stalls(halt(0x81, False), "C16"),
        stalls(halt(0x81), "C16"), done(halt(0x81, False)), tells(status_of(2, 0x81), "0200", "C15"), tells(status_of(2, 0x81), "0000"),
        tells(status_of(2, 0x81), "0100"), tells(status_of(2, 0x83), "0000", "C15"), stalls(status_of(2, 0x81), "C15"),
        # The chosen setting, and those that there are.
        stalls(choose(1, 1), "C17"), tells(setting_of(1), "01", "C17"), done(choose(1, 1)), tells(setting_of(1), "00", "C17"),
        stalls(setting_of(1), "C17"), tells(setting_of(2), "00", "C17"), tells(setting_of(1), "01"), stalls(choose(0, 0)), stalls(choose(1, 1), "C17"),
        tells(setting_of(1), "0001", "T1 C17"), stalls(status_of(2, 2), "C15"),
        # A setting, a halt, an interface and remote wakeup that it doesn't have. After each its state isn't known.
        done(choose(1, 2), "C17"), tells(setting_of(1), "00"),
        *begins(FIRST, SECOND), done(configure(1)), done(halt(0x83), "C16"), tells(VALUE, "00"), tells(status_of(2, 0x81), "0200"),
        *begins(FIRST, SECOND), done(configure(2)), done(choose(1, 0), "C17"), tells(VALUE, "00"),
        *begins(SET), stalls(wakeup()), done(configure(1)), tells(status_of(0), "0200", "C15"), done(wakeup(), "C16"), tells(status_of(0), "0200"),
        # Nothing is known after a reset.
        *begins(FIRST, SECOND), done(configure(1)), tells(VALUE, "00", "C14"), OTHER_DEVICE, tells(VALUE, "00"), tells(status_of(2, 0x81), "0200"),
    ]


def recording_of(name, rows):
    """The recording of these rows, if the second reading finds in it what they have."""
    data, _ = heard(288, [it for body, _ in rows for it in body] + [FRAME])
    over = recorded.Recording(data).order
    for place, (transfer, (_, found)) in enumerate(zip(over, rows, strict=True)):
        if transfer["found"] != (found or "").split():
            sys.exit(f"{name}, transfer {place}, {recorded.request_words(transfer['setup'])}: {transfer['found']}, and not {found}")
    return data


def main():
    recordings = {name: recording_of(name, rows) for name, rows in (("right-answers", right()), ("wrong-answers", wrong()))}
    for name, data in recordings.items():
        with open(os.path.join(FOLDER, f"{name}.pcap"), "wb") as out:
            out.write(data)


if __name__ == "__main__":
    main()
