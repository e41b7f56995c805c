"""A device that is plugged into a Linux machine, as usbfs has it: its control transfers, its interfaces and their drivers."""
from __future__ import annotations

import ctypes
import errno
import fcntl
import os
import select
import sys
from ctypes import Structure, c_char, c_int, c_ubyte, c_uint, c_void_p

from ._usbfs_words import CLEAR_FEATURE, SET_ADDRESS, SET_CONFIGURATION, SET_DESCRIPTOR, SET_FEATURE, SET_INTERFACE, TEST_MODE, WAKEUP, word

# In milliseconds (9.2.6), and the most interfaces that usbfs claims.
LIMIT, INTERFACES = 5000, 64
SPEEDS = {"1.5": "low", "12": "full", "480": "high"}


class _Urb(Structure):
    """struct usbdevfs_urb"""

    _fields_ = [("type", c_ubyte), ("endpoint", c_ubyte), ("status", c_int), ("flags", c_uint), ("buffer", c_void_p), ("buffer_length", c_int), ("actual_length", c_int),
                ("start_frame", c_int), ("number_of_packets", c_int), ("error_count", c_int), ("signr", c_uint), ("usercontext", c_void_p)]


class _Transfer(Structure):
    """One of them, then its request and data. Of more than 1,024 bytes `fcntl.ioctl` passes the place itself, which the kernel keeps."""

    _fields_ = [("urb", _Urb), ("bytes", c_ubyte * (8 + 65535))]


class _Driver(Structure):
    """struct usbdevfs_getdriver"""

    _fields_ = [("interface", c_uint), ("driver", c_char * 256)]


class _Claim(Structure):
    """struct usbdevfs_disconnect_claim"""

    _fields_ = [("interface", c_uint), ("flags", c_uint), ("driver", c_char * 256)]


class _OfDriver(Structure):
    """struct usbdevfs_ioctl"""

    _fields_ = [("interface", c_int), ("code", c_int), ("data", c_void_p)]


def _code(direction: int, number: int, of: type | None = None) -> int:
    """The number of an ioctl of usbfs: direction 1 is _IOW, 2 _IOR, 3 both."""
    return direction << 30 | (ctypes.sizeof(of) if of else 0) << 16 | ord("U") << 8 | number


_SETCONFIGURATION, _GETDRIVER, _SUBMITURB, _DISCARDURB, _REAPURB = _code(2, 5, c_uint), _code(1, 8, _Driver), _code(2, 10, _Urb), _code(0, 11), _code(1, 12, c_void_p)
_CLAIMINTERFACE, _RELEASEINTERFACE, _IOCTL, _CONNECT, _DISCONNECT_CLAIM = _code(2, 15, c_uint), _code(2, 16, c_uint), _code(3, 18, _OfDriver), _code(0, 23), _code(2, 27, _Claim)
_CONTROL, _EXCEPT_DRIVER = 2, 2


class Refused(Exception):
    """Why nothing can be said of a device: a line."""


class Plugged:
    """A device at usbfs. `selected` is bConfigurationValue of the set that the kernel has selected; once it `is_detached` no driver has it,
    and it may be disturbed; `error` is 0 or the errno that the
    transfer that was made last ended with, `kept_back` whether the kernel didn't make it, and `data` what came."""

    def __init__(self, name: str, disturbs: bool = False):
        self.name, self.disturbs, self.is_detached = name, disturbs, False
        self.error, self.kept_back, self.data, self._is_awake = 0, False, b"", False
        bus, number, speed = self.said_number("busnum"), self.said_number("devnum"), self._said("speed")
        if not bus:
            raise Refused("no such device; /sys/bus/usb/devices has those that are plugged in, as 1-1")
        if speed not in SPEEDS:
            raise Refused(f"it runs at {speed} Mbit/s, and USB 2.0 has 1.5, 12 and 480: a hub or a cable of USB 2.0 slows it down")
        self.speed, self.selected = SPEEDS[speed], self.said_number("bConfigurationValue") & 0xFF
        path = f"/dev/bus/usb/{bus:03}/{number:03}"
        try:
            self._file = os.open(path, os.O_RDWR)
        except PermissionError:
            rule = f'SUBSYSTEM=="usb", ATTR{{idVendor}}=="{self._said("idVendor")}", ATTR{{idProduct}}=="{self._said("idProduct")}", MODE="0666"'
            raise Refused(f"no rights to {path}: {rule} in /etc/udev/rules.d/70-usb.rules gives them") from None
        except OSError as fault:
            raise Refused(f"{path}: {fault.strerror}") from None

    def tell(self, line: str) -> None:
        """A line of this device to standard error."""
        print(f"usbfs: {self.name}: {line}", file=sys.stderr, flush=True)

    def close(self) -> None:
        """Gives the device back; the kernel releases its interfaces."""
        os.close(self._file)

    # --- what the kernel says

    def _said(self, name: str, below: str = "") -> str:
        try:
            with open(f"/sys/bus/usb/devices/{self.name}{below}/{name}", encoding="latin-1") as it:
                return it.read().strip()
        except OSError:
            return ""

    def said_number(self, name: str, below: str = "") -> int:
        """A number that the kernel says of it, or of an interface of it; 0 where there is none."""
        said = self._said(name, below)
        return int(said) if said.isdecimal() else 0

    # --- control transfers

    def may_be_sent(self, q: bytes) -> bool:
        """No class or vendor request, SET_ADDRESS, SET_DESCRIPTOR or TEST_MODE is ever sent, nor a halt of endpoint zero, which a reset
        alone ends. With wLength 0 bit 7 of bmRequestType means nothing (9.3.4), so bRequest says what disturbs."""
        if q[0] & 0x60 or q[1] in (SET_ADDRESS, SET_DESCRIPTOR) or (q[1] == SET_FEATURE and word(q, 2) == TEST_MODE) or halts_zero(q):
            return False
        reads = q[0] & 0x80 and q[1] not in (CLEAR_FEATURE, SET_FEATURE, SET_CONFIGURATION, SET_INTERFACE)
        return bool(reads) or (self.is_detached and not word(q, 6))

    def transfer(self, q: bytes) -> None:
        """One control transfer, which takes at most 5 s (9.2.6)."""
        it = _Transfer()
        it.urb.type, it.urb.buffer_length, it.urb.buffer = _CONTROL, 8 + word(q, 6), ctypes.addressof(it) + _Transfer.bytes.offset
        it.bytes[:8] = q
        self.error, self.kept_back, self.data = 0, False, b""
        try:
            if not self.may_be_sent(q):
                raise PermissionError(errno.EPERM, "")
            fcntl.ioctl(self._file, _SUBMITURB, it)
        except OSError as fault:
            self.error, self.kept_back = fault.errno, True
            return
        if not q[0] & 0x1F and word(q, 2) == WAKEUP and q[1] in (SET_FEATURE, CLEAR_FEATURE):
            self._is_awake = q[1] == SET_FEATURE
        done = select.poll()
        done.register(self._file, select.POLLOUT)
        is_late = not done.poll(LIMIT)
        if is_late:
            self._try(_DISCARDURB, it)
        self.error = self._reaped()
        if not self.error:
            # ENOENT is of a transfer that was given up: after 5 s, or since the device is gone.
            self.error = -it.urb.status if it.urb.status != -errno.ENOENT else errno.ETIMEDOUT if is_late else errno.ENODEV
            self.data = bytes(it.bytes[8:8 + max(it.urb.actual_length, 0)])

    def sleep_again(self) -> None:
        """No remote wakeup is left, which SET_CONFIGURATION doesn't end."""
        if self._is_awake and not self.is_gone:
            self.transfer(bytes([0, CLEAR_FEATURE, WAKEUP, 0, 0, 0, 0, 0]))

    def _reaped(self) -> int:
        """Waits for the transfer to end."""
        while (error := self._try(_REAPURB, bytearray(ctypes.sizeof(c_void_p)))) == errno.EINTR:
            pass
        return error

    def _try(self, code: int, what) -> int:
        """An ioctl: 0, or its errno."""
        try:
            fcntl.ioctl(self._file, code, what)
            return 0
        except OSError as fault:
            return fault.errno

    @property
    def is_gone(self) -> bool:
        """Whether it was unplugged."""
        return self.error in (errno.ENODEV, errno.ESHUTDOWN)

    # --- drivers

    def driver_of(self, interface: int) -> str:
        """The driver of an interface, or ''."""
        it = _Driver(interface)
        return "" if self._try(_GETDRIVER, it) else it.driver.decode()

    def claim(self, interface: int) -> int:
        """Claims an interface, and with `disturbs` detaches its driver, but not another program at usbfs: 0, or an errno."""
        return self._try(_DISCONNECT_CLAIM, _Claim(interface, _EXCEPT_DRIVER, b"usbfs")) if self.disturbs else self._try(_CLAIMINTERFACE, c_uint(interface))

    def release(self, interface: int) -> None:
        """Gives an interface back."""
        self._try(_RELEASEINTERFACE, c_uint(interface))

    def select_again(self) -> int:
        """The kernel selects the set again, so that both ends agree on toggles and settings: 0, or an errno."""
        return self._try(_SETCONFIGURATION, c_uint(self.selected))

    def attach(self, interface: int) -> int:
        """The driver of an interface gets it again: 0, or an errno."""
        return self._try(_IOCTL, _OfDriver(interface, _CONNECT, None))


def halts_zero(q: bytes) -> bool:
    """Whether it is a halt of endpoint zero."""
    return q[1] == SET_FEATURE and q[0] & 0x1F == 2 and not q[4] & 0x0F
