"""Prints where a proxy would send a connection, by its host name: route.py NAME=PLACE.. < STREAM

It prints the place of the name, or `-` if none matches, and reads only the client's first message.
"""

import sys
from typing import Optional

if sys.argv[1:] == ["--help"]:
    print(__doc__)
    sys.exit()

import wispuddera  # noqa: E402

HANDSHAKE, CLIENT_HELLO = 22, 1
LIMIT = 65536


def name_asked(
    records: wispuddera.RecordStream, messages: wispuddera.MessageStream, piece: bytes
) -> tuple[bool, Optional[bytes]]:
    """Whether the first message is complete with this piece, and the host name in it."""
    for record in records.feed(piece):
        if record.content_type != HANDSHAKE:
            return True, None
        for message in messages.feed(record.fragment):
            return (
                True,
                wispuddera.server_name_of_hello(message.body)
                if message.kind == CLIENT_HELLO
                else None,
            )
    return False, None


def main(places: dict[bytes, str]) -> int:
    records, messages = wispuddera.RecordStream(), wispuddera.MessageStream(LIMIT)
    is_known, name, count = False, None, 0
    try:
        while not is_known and count < LIMIT and (piece := sys.stdin.buffer.read(1)):
            count += len(piece)
            is_known, name = name_asked(records, messages, piece)
    except wispuddera.Incomplete:
        print(f"refused: {wispuddera.Refused('Complete')}")
        return 1
    except wispuddera.Refused as refusal:
        print(f"refused: {refusal}")
        return 1
    if not is_known:
        print("refused: more bytes are needed")
        return 1
    print(places.get(name, "-"))
    return 0


if __name__ == "__main__":
    pairs = (word.partition("=") for word in sys.argv[1:])
    sys.exit(main({name.encode(): place for name, _, place in pairs}))
