"""The bytes of a packet that follow from its others (docs/RULES.md)."""


def mend(packet, section=None):
    """Makes length and checksum right, of a packet that ends with its footer, and the header's three flags where it is
    said at which place the service section begins."""
    packet[2] = len(packet)
    if section is not None:
        packet[4] = packet[4] & 0xE3 | (packet[section + 1] & 0x70) >> 2
    packet[-1] = -sum(packet[:-1]) & 0xFF
