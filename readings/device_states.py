"""The state of a device by its control transfers, and what it answers in it (USB 2.0, 9.1.1 and 9.4). It shares no code with the crates."""

import struct
from typing import NamedTuple

GET_STATUS, CLEAR_FEATURE, SET_FEATURE, GET_CONFIGURATION, SET_CONFIGURATION, GET_INTERFACE, SET_INTERFACE = 0, 1, 3, 8, 9, 10, 11
DEVICE, INTERFACE, ENDPOINT = range(3)
ENDPOINT_HALT, DEVICE_REMOTE_WAKEUP = 0, 1
# Bits 1 and 0 of bmAttributes of endpoints that need no ENDPOINT_HALT (9.4.5, 9.6.6).
CONTROL, ISOCHRONOUS = 0, 1


class State(NamedTuple):
    """That of a device with an address: bConfigurationValue of its configuration, or 0; the alternate setting of each interface where SET_INTERFACE
    chose one; the halted endpoints, by number and direction; and whether remote wakeup is on."""

    configuration: int = 0
    alternates: dict = {}
    halted: frozenset = frozenset()
    wakes: bool = False


class Setting(NamedTuple):
    """An interface descriptor and bmAttributes of each endpoint after it, by bEndpointAddress (9.6.5, 9.6.6)."""

    interface: int
    alternate: int
    endpoints: list


class Configuration:
    """Of a configuration what a device's answers depend on (9.6.3)."""

    def __init__(self, data):
        self.value, self.attributes, self.settings = (data + bytes(8))[5], (data + bytes(8))[7], []
        for rest in from_each(data):
            if rest[1] == 4:
                self.settings.append(Setting(rest[2], rest[3], []))
            elif rest[1] == 5 and self.settings:
                self.settings[-1].endpoints.append((rest[2], rest[3]))

    def has_remote_wakeup(self):
        return bool(self.attributes & 0x20)


def from_each(data):
    """The bytes from each descriptor on, with some more after the last."""
    while data and data[0] > 1:
        yield data + bytes(4)
        data = data[data[0]:]


def are_whole(data):
    """Whether these are whole descriptors, of which the first is a configuration that says of how many bytes all are."""
    if len(data) < 4 or data[1] != 2 or len(data) != struct.unpack_from("<H", data, 2)[0]:
        return False
    while data and 1 < data[0] <= len(data):
        data = data[data[0]:]
    return not data


def configurations_of(parts):
    """The configurations of a device that said these bytes of each, or None where it didn't say all of them."""
    return [Configuration(part) for part in parts] if parts and all(map(are_whole, parts)) else None


class Asked:
    """A request to a device of these configurations in this state."""

    def __init__(self, configurations, state, setup):
        self.configurations, self.state, self.setup = configurations, state, setup
        self.kind, self.request, self.value, self.index, self.length = struct.unpack("<BBHHH", setup)
        selected = [it for it in configurations if it.value == state.configuration] if state.configuration else []
        # The configuration that was set, if any, and its settings, of which one of each interface is chosen.
        self.selected = selected[0] if selected else None
        self.settings = self.selected.settings if selected else []
        self.chosen = [it for it in self.settings if state.alternates.get(it.interface, 0) == it.alternate]

    def is_to(self, recipient):
        return self.kind & 31 == recipient

    def alternates(self):
        """The alternate settings of the interface of wIndex: none where there is no such interface."""
        return {it.alternate for it in self.settings if it.interface == self.index}

    def attributes(self):
        """Those of the endpoints of wIndex in chosen settings: none where there is no such endpoint."""
        return [attributes for setting in self.chosen for address, attributes in setting.endpoints if address == self.index]

    def is_of_endpoint_zero(self):
        return self.index in (0, 0x80)

    def answer(self):
        """The bytes that the device answers, its state once it has done what it is asked for, or None where it answers STALL."""
        return {
            GET_STATUS: self.status, CLEAR_FEATURE: self.with_feature, SET_FEATURE: self.with_feature, GET_CONFIGURATION: self.configuration,
            SET_CONFIGURATION: self.with_configuration, GET_INTERFACE: self.setting, SET_INTERFACE: self.with_setting,
        }[self.request]()

    def configuration(self):
        return bytes([self.state.configuration])

    def setting(self):
        return bytes([self.state.alternates.get(self.index, 0)]) if self.alternates() else None

    def status(self):
        """Bit 0 of a device's status is that it is self-powered, bit 1 that remote wakeup is on; bit 0 of an endpoint's that it is halted."""
        if self.is_to(DEVICE):
            of = self.selected if self.state.configuration else self.configurations[0]
            return bytes([(of.attributes >> 6 & 1 if of else 0) | self.state.wakes << 1, 0])
        if self.is_to(INTERFACE):
            return bytes(2) if self.alternates() else None
        if self.is_of_endpoint_zero():
            return bytes(2)
        return bytes([place_of(self.index) in self.state.halted, 0]) if self.attributes() else None

    def with_feature(self):
        """Remote wakeup is a feature of a device of which a configuration has it. Endpoint zero isn't halted by request."""
        is_set = self.request == SET_FEATURE
        if self.length:
            return None
        if self.is_to(DEVICE) and self.value == DEVICE_REMOTE_WAKEUP and self.index == 0:
            return self.state._replace(wakes=is_set) if any(it.has_remote_wakeup() for it in self.configurations) else None
        if self.is_to(ENDPOINT) and self.value == ENDPOINT_HALT and not self.is_of_endpoint_zero() and self.attributes():
            place = {place_of(self.index)}
            return self.state._replace(halted=self.state.halted | place if is_set else self.state.halted - place)
        return None

    def with_configuration(self):
        """Each interface has setting 0 then, and no endpoint is halted (9.1.1.5)."""
        if self.length or self.index or not self.is_to(DEVICE) or self.value not in {0, *(it.value for it in self.configurations)}:
            return None
        return State(configuration=self.value, wakes=self.state.wakes)

    def with_setting(self):
        """No endpoint of the interface is halted then (9.1.1.5)."""
        if self.length or not self.is_to(INTERFACE) or self.value not in self.alternates():
            return None
        places = {place_of(address) for it in self.settings if it.interface == self.index for address, _ in it.endpoints}
        return self.state._replace(alternates={**self.state.alternates, self.index: self.value}, halted=self.state.halted - places)

    def may_be_refused(self):
        """Whether a device may do it or answer STALL: SET_INTERFACE of an only setting (9.4.10), remote wakeup that some of its configurations
        have (9.6.3), the halt of an endpoint that is for neither bulk nor interrupt transfers (9.4.5)."""
        if self.request == SET_INTERFACE:
            return self.alternates() == {self.value}
        if self.request not in (CLEAR_FEATURE, SET_FEATURE):
            return False
        if self.is_to(DEVICE):
            return len({it.has_remote_wakeup() for it in self.configurations}) == 2
        return self.is_of_endpoint_zero() or any(attributes & 3 in (CONTROL, ISOCHRONOUS) for attributes in self.attributes())

    def is_like(self, came, wanted):
        """Whether these bytes may come. A device may be self-powered at times, and halts an endpoint by itself (9.4.5)."""
        if self.request == GET_STATUS and len(came) == 2 and self.is_to(DEVICE):
            return (came[0] & 0xFE, came[1]) == (wanted[0] & 0xFE, wanted[1])
        return came == wanted or (self.request == GET_STATUS and self.is_to(ENDPOINT) and came == b"\1\0")

    def is_answered_otherwise(self, transfer):
        """Whether a transfer that has ended shows another answer."""
        ending, wanted = transfer["ending"][0], self.answer()
        if ending not in ("done", "stall") or self.may_be_refused():
            return False
        if ending == "stall" or wanted is None:
            return (ending == "stall") != (wanted is None)
        if isinstance(wanted, State):
            return False
        return transfer["length"] != len(wanted) or not (transfer["cut"] or self.is_like(transfer["data"], wanted))


def place_of(address):
    """An endpoint's number and direction (9.6.6)."""
    return address & 0x8F


def group_of(setup):
    """In which group of requests one is whose answers are compared, or None where a field has a value that 9.4 doesn't specify."""
    kind, request, value, index, length = struct.unpack("<BBHHH", setup)
    if index > 255:
        return None
    if (request, value, length) == (GET_STATUS, 0, 2) and (kind in (0x81, 0x82) or (kind, index) == (0x80, 0)):
        return "status"
    is_feature = (kind, value, index) == (0, DEVICE_REMOTE_WAKEUP, 0) or (kind, value) == (2, ENDPOINT_HALT)
    if request in (CLEAR_FEATURE, SET_FEATURE) and length == 0 and is_feature:
        return "feature"
    if (kind, request, value, length) == (0x81, GET_INTERFACE, 0, 1) or ((kind, request, length) == (1, SET_INTERFACE, 0) and value < 256):
        return "setting"
    return "configuration" if (kind, request, value, index, length) == (0x80, GET_CONFIGURATION, 0, 0, 1) else None


def changes_state(setup):
    return setup[0] & 0x60 == 0 and setup[1] in (CLEAR_FEATURE, SET_FEATURE, SET_CONFIGURATION, SET_INTERFACE)


def state_after(configurations, state, transfer):
    """The state after a request that changes it: known where that was refused, or done as by a device of these configurations."""
    if transfer["ending"][0] == "stall":
        return state
    if transfer["ending"][0] != "done" or configurations is None:
        return None
    new = Asked(configurations, state, transfer["setup"]).answer()
    return new if isinstance(new, State) else None
