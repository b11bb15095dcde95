"""The octets of a session: batches (RFC 5793), messages and Errors (RFC 5792), and the attributes of subscriptions (RFC 8412)."""

from formats import IDS, attribute, counted, joined, number
from reading import CLOSE, ERROR, PB_BAD_VERSION, PB_ERROR, PB_PA, UNEXPECTED

SERVER, CLIENT = 0x80, 0


def request_fields(asked):
    """The fields of a request, as it stands in a Request and in a Subscription Status Response."""
    flags = (0x80 if asked.clear else 0) | (0x40 if asked.subscribe else 0) | (0x20 if asked.kind == IDS else 0)
    head = [("flags", flags, 1), ("count", len(asked.targets), 3), ("request", asked.identifier, 4), ("earliest EID", asked.earliest, 4)]
    return [number(*it) for it in head] + [field for it in asked.targets for field in counted("target", it, 2)]


def status(requests):
    """The value of a Subscription Status Response."""
    return [number("status flags", 0, 1), number("count", len(requests), 3), *(it for asked in requests for it in request_fields(asked))]


def error(code, *information):
    """The attribute of an Error with numbers of four octets, or octets, as its information."""
    head = [number("reserved", 0, 1), number("error vendor", 0, 3), number("code", code, 4)]
    return attribute(ERROR, head + [("information", it) if isinstance(it, bytes) else number("information", it, 4) for it in information])


def pb_message(kind, value):
    """A message of PB-TNC that may not be skipped."""
    return bytes([0x80, 0, 0, 0]) + kind.to_bytes(4, "big") + (12 + len(value)).to_bytes(4, "big") + value


def pa_message(identifier, attributes):
    """A message of PB-TNC that carries a PA-TNC message of SWIMA."""
    posture = bytes(4) + (9).to_bytes(4, "big") + bytes([0, 1, 0, 1])
    head = bytes([1, 0, 0, 0]) + identifier.to_bytes(4, "big")
    return pb_message(PB_PA, posture + head + b"".join(joined(it) for it in attributes))


def batch(direction, kind, messages):
    octets = b"".join(messages)
    return bytes([2, direction, 0, kind]) + (8 + len(octets)).to_bytes(4, "big") + octets


def fault_batch(direction, fault):
    """The CLOSE that reports a fault by one fatal PB-Error (RFC 5793, section 4.9)."""
    parameters = fault.place.to_bytes(4, "big")
    if fault.code == PB_BAD_VERSION:
        parameters = bytes([fault.version, 2, 2, 0])
    if fault.code == UNEXPECTED:
        parameters = b""
    return batch(direction, CLOSE, [pb_message(PB_ERROR, bytes([0x80, 0, 0, 0]) + fault.code.to_bytes(2, "big") + bytes(2) + parameters)])
