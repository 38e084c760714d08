"""Prints the host name of each ClientHello in a client's stream of records: names.py < STREAM

The stream is read in pieces of any length, and a hello may be split over several records.
"""

import sys

if sys.argv[1:] == ["--help"]:
    print(__doc__)
    sys.exit()

import wispuddera  # noqa: E402

CHANGE_CIPHER_SPEC, HANDSHAKE, CLIENT_HELLO = 20, 22, 1


def main() -> int:
    records, messages = wispuddera.RecordStream(), wispuddera.MessageStream()
    try:
        while piece := sys.stdin.buffer.read(700):
            for record in records.feed(piece):
                if record.content_type == CHANGE_CIPHER_SPEC:
                    return 0
                for message in (
                    messages.feed(record.fragment) if record.content_type == HANDSHAKE else ()
                ):
                    if message.kind == CLIENT_HELLO:
                        print(name_of(message.body))
    except wispuddera.Refused as refusal:
        print(f"refused: {refusal}")
        return 1
    return 0


def name_of(hello: memoryview) -> str:
    try:
        name = wispuddera.server_name_of_hello(hello)
    except wispuddera.Incomplete:
        return "refused: more bytes are needed"
    except wispuddera.Refused as refusal:
        return f"refused: {refusal}"
    return name.decode("ascii", "backslashreplace") if name is not None else "-"


if __name__ == "__main__":
    sys.exit(main())
