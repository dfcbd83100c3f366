"""How host/scenarios prints octets."""


def text_of(octets):
    """Octets as digits; a run of four or more equal ones as the octet, a star, a number and a comma."""
    out, i = "", 0
    while i < len(octets):
        n = 1
        while i + n < len(octets) and octets[i + n] == octets[i]:
            n += 1
        out += "%02X" % octets[i] + ("*%d," % n if n >= 4 else "")
        i += n if n >= 4 else 1
    return out
