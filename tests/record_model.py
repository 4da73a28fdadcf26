"""A plain model of `replay` and `convert`: the frames of a record (BEP 3) in both forms, and the line of each by a
session of session_model."""

MOST_OF_BODY = 49 + 32 * (8192 + 32)
MESSAGES = (7, 21, 22, 23)

# What a record of form 2 begins with, and the direction bytes before its frames.
FORM_2 = bytes.fromhex("ffffffff42544832")
CAME_IN, WENT_OUT = 0, 1


def number(data, at):
    return int.from_bytes(data[at:at + 4], "big")


def has_right_size(ident, size):
    if ident == 7:
        return 9 <= size <= MOST_OF_BODY
    if ident == 22:
        return 49 <= size <= MOST_OF_BODY and (size - 49) % 32 == 0
    return size == 49


def read(record):
    """The frames of a record, each as its direction and its body, and the last line of the report on them."""
    has_directions = record.startswith(FORM_2)
    found, at = [], len(FORM_2) if has_directions else 0
    while at < len(record):
        way = record[at] if has_directions else CAME_IN
        if way not in (CAME_IN, WENT_OUT):
            return found, "fault BadDirection"
        start = at + (5 if has_directions else 4)
        end = start + number(record, start - 4)
        if start > len(record) or end > len(record):
            return found, "fault Truncated"
        found.append((way, record[start:end]))
        at = end
    return found, "end"


def bodies(record):
    """The bodies of the frames, and whether the record ends between two of them."""
    found, last = read(record)
    return [body for _, body in found], last == "end"


def ask_of(body):
    """The five fields of a request, of hashes or of a reject."""
    return (body[1:33], *(number(body, at) for at in (33, 37, 41, 45)))


def lines(session, body, take=None):
    """What is printed of a frame that came in, behind its number: for a message of blocks a line for each. Hashes are
    taken by this call, or as in form 1."""
    if body and body[0] == 7 and has_right_size(7, len(body)):
        return session.blocks(number(body, 1), number(body, 5), body[9:])
    return [line(session, body, take or session.take)]


def line(session, body, take):
    """What is printed of a frame that came in and carries no block, behind its number."""
    if not body:
        return "keep-alive"
    ident = body[0]
    if ident not in MESSAGES:
        return f"skipped {ident}"
    if not has_right_size(ident, len(body)):
        return f"bad frame {ident} {len(body)}"
    if ident == 21:
        return session.answer(*ask_of(body))
    if ident == 23:
        return "reject noted"
    return take(*ask_of(body), [body[at:at + 32] for at in range(49, len(body), 32)])


def sent_line(session, body):
    """What is printed of a frame that went out, behind its number."""
    if body and body[0] in MESSAGES and not has_right_size(body[0], len(body)):
        return f"bad frame {body[0]} {len(body)}"
    if body and body[0] == 21:
        session.note(*ask_of(body))
        return "sent request"
    return "sent"


def report(session, record):
    """The status and the text of `replay` of this record."""
    found, last = read(record)
    take = session.take_answer if record.startswith(FORM_2) else session.take
    said = [(at, text) for at, (way, body) in enumerate(found, 1)
            for text in (lines(session, body, take) if way == CAME_IN else [sent_line(session, body)])]
    refused = any(text.startswith(("refused", "bad frame")) for _, text in said)
    text = "".join(f"{at} {text}\n" for at, text in said) + f"{last}\n"
    return (1 if refused else 0) if last == "end" else 2, text.encode()


def framed(body):
    return len(body).to_bytes(4, "big") + body


def converted(record):
    """The record of form 2 that stands for the whole frames of one of form 1: before hashes stands their request."""
    parts = [FORM_2]
    for _, body in read(record)[0]:
        if body and body[0] == 22 and has_right_size(22, len(body)):
            parts += [bytes([WENT_OUT]), framed(b"\x15" + body[1:49])]
        parts += [bytes([CAME_IN]), framed(body)]
    return b"".join(parts)


def conversion(record, path):
    """What `convert` of this record at this path is to do: its status, what it prints, what goes to standard error,
    and with what OUT begins. With status 0 this is all of OUT."""
    if record.startswith(FORM_2):
        return 1, b"refused 3 AlreadyForm2\n", b"", b""
    is_whole = read(record)[1] == "end"
    said = b"" if is_whole else f"fault: record is truncated: {path}\n".encode()
    return 0 if is_whole else 2, b"", said, converted(record)
