"""Messages of peers as bytes (BEP 3, BEP 52)."""

KEEP_ALIVE = bytes(4)


def frame(body):
    return len(body).to_bytes(4, "big") + body


def numbers(*values):
    return b"".join(value.to_bytes(4, "big") for value in values)


def piece(index, begin, block):
    return frame(b"\x07" + numbers(index, begin) + block)


def ask_frame(ident, root, base, index, length, proof, hashes=()):
    return frame(bytes([ident]) + root + numbers(base, index, length, proof) + b"".join(hashes))


def request(*ask):
    return ask_frame(21, *ask)


def hashes(*ask, given):
    return ask_frame(22, *ask, hashes=given)


def reject(*ask):
    return ask_frame(23, *ask)
