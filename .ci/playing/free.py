"""What the standard leaves open to a device, a second reading: by chapter 9 for the requests of the bench's talk."""
DEFAULT, ADDRESS, CONFIGURED = range(3)


def fields(q):
    """bmRequestType, bRequest, wValue, wIndex and wLength (9.3)."""
    return q[0], q[1], *(int.from_bytes(q[at:at + 2], "little") for at in (2, 4, 6))


def is_unspecified(state, q):
    """Whether chapter 9 says that a device's behaviour isn't specified, where a request comes in this state."""
    kind, request, value, index, length = fields(q)
    if state == DEFAULT and (kind & 0x60 or request not in (5, 6)):
        return True  # 9.4, but GET_DESCRIPTOR and SET_ADDRESS
    if kind & 0x60:
        return False
    has_index = index != 0 and kind & 0x1F == 0
    match request:
        case 0:  # GET_STATUS (9.4.5)
            return value != 0 or length != 2 or has_index
        case 1 | 3:  # CLEAR_FEATURE (9.4.1), SET_FEATURE (9.4.9)
            return length != 0 or has_index
        case 5:  # SET_ADDRESS (9.4.6)
            return state == CONFIGURED or value > 127 or index != 0 or length != 0
        case 6:  # GET_DESCRIPTOR of a device or its qualifier (9.4.3)
            return value >> 8 in (1, 6) and value & 0xFF != 0
        case 8:  # GET_CONFIGURATION (9.4.2)
            return value != 0 or index != 0 or length != 1
        case 9:  # SET_CONFIGURATION (9.4.7)
            return value > 255 or index != 0 or length != 0
        case 10:  # GET_INTERFACE (9.4.4)
            return value != 0 or length != 1
        case 11:  # SET_INTERFACE (9.4.10)
            return length != 0
        case 12:  # SYNCH_FRAME (9.4.11)
            return value != 0 or length != 2
    return False


def is_of_an_owner(q, strings):
    """Whether a device's owner may answer it (9.2.7): of a class or a vendor, or a descriptor that isn't in the file. Strings that are
    there are given as wValue and wIndex."""
    kind, request, value, index, _ = fields(q)
    return bool(kind & 0x60) or request == 6 and (kind & 0x1F != 0 or value >> 8 not in (1, 2, 6, 7)) and (value, index) not in strings


def why_free(state, q, stage, way, strings, single, isochronous):
    """Why a device that is right but for this answer is right all the same; else nothing. `single` are the interfaces with one setting."""
    kind, request, value, index, _ = fields(q)
    if is_unspecified(state, q):
        return "not specified"
    if is_of_an_owner(q, strings):
        # a packet of a write is taken (8.5.3), and the rest is refused
        return "of an owner" if stage == 2 and way == "ACK" else ""
    if (kind, request) == (1, 11) and index in single and stage == 1 and way == "STALL":
        return "SET_INTERFACE of one setting"  # 9.4.10
    if kind == 2 and request in (1, 3) and index in isochronous and stage == 1 and way == "STALL":
        return "a halt of an isochronous endpoint"  # 9.4.5
    return ""
