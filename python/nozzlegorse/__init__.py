"""USB 2.0 descriptors, and both ends of the control pipe, by a proved library.

>>> import nozzlegorse as usb
>>> for endpoint in usb.read(data).endpoints:
...     print(endpoint)
>>> for finding in usb.check(data):
...     print(finding)

`read` gives descriptors as values, `walk` also those of broken bytes, `find` where sets and device descriptors stand in any bytes; `check` gives findings, `remarks` what else is remarked;
`show`, `build` and `explain` the texts of the program `usbdesc`, `from_text` the bytes of hexadecimal text, `enumerate` a whole enumeration. `nozzlegorse.ends` has a device and a host transaction by
transaction, `nozzlegorse.packets` the packets of the bus, `Capture` recordings of it. What is refused is a `Fault`, a `ValueError` with its kind, number, name, place and message. Bytes are `bytes` or what
any buffer holds.
"""
from . import ends, packets
from .descriptors import (Association, Configuration, Descriptor, Descriptors, Device, Endpoint, Field, Finding, Found, Interface,
                          Languages, Qualifier, Raw, Remark, String, check, find, judge, message, read, remarks, walk)
from .dicts import to_dict
from .faults import Fault, TextFault
from .recordings import Capture
from .texts import Decoder, Enumeration, Explanation, build, enumerate, enumerate_log, explain, from_text, show, with_strings

__version__ = "0.2.0-dev"
__all__ = ["Association", "Capture", "Configuration", "Decoder", "Descriptor", "Descriptors", "Device", "Endpoint", "Enumeration",
           "Explanation", "Fault", "Field", "Finding", "Found", "Interface", "Languages", "Qualifier", "Raw", "Remark", "String", "TextFault",
           "build", "check", "ends", "enumerate", "enumerate_log", "explain", "find", "from_text", "judge", "message", "packets", "read", "remarks", "show", "to_dict", "walk", "with_strings"]
