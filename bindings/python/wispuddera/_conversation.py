"""Follows a TLS conversation from the bytes of both sides: `Conversation`."""

from __future__ import annotations

import ctypes
from collections import deque
from collections.abc import Iterator
from dataclasses import dataclass
from typing import TYPE_CHECKING, Optional

from . import _library as _c

if TYPE_CHECKING:
    from . import Data, EventKind, Outcome

# The length of the header before an event's content, by form: that of a message or of a
# record.
_MESSAGE, _FAULT = 0, 6
_HEADERS = {_MESSAGE: 4, 1: 5, 3: 5, 4: 5}
_FAULTS = {**_c.KINDS, 11: "TooLarge", 12: "Interrupted"}


@dataclass(frozen=True)
class ConversationEvent:
    """A message, alert or record of a side: its kind, and its bytes.

    `content` is the body of a handshake message, whose HandshakeType is `message`; the 2 bytes of
    an alert; the fragment of a heartbeat or of unencrypted application data; or an encrypted
    record. `fault` is why this side isn't read any further.
    """

    to_server: bool
    kind: EventKind
    content: bytes = b""
    message: Optional[int] = None
    fault: Optional[str] = None


@dataclass(frozen=True)
class ConversationStop:
    """The event that ended a handshake without success, and the number of events before it."""

    event: ConversationEvent
    events_before: int


class _Buffer:
    """The buffered bytes of one side. It grows as needed."""

    def __init__(self) -> None:
        self.bytes = (ctypes.c_ubyte * 4096)()

    def grow(self, more: int) -> None:
        grown = (ctypes.c_ubyte * (2 * len(self.bytes) + more))()
        ctypes.memmove(grown, self.bytes, len(self.bytes))
        self.bytes = grown

    def at(self, place: _c.Place) -> bytes:
        return ctypes.string_at(ctypes.addressof(self.bytes) + place.offset, place.length)


class Conversation:
    """Follows both sides of a TLS conversation, from pieces of their streams in the order of their
    arrival.

    A handshake message may have a body of `limit` bytes. Iterating removes and returns the events
    so far; `outcome` includes them either way.

    >>> import wispuddera
    >>> conversation = wispuddera.Conversation()
    >>> conversation.feed("client", b"\\x15\\x03\\x03\\x00\\x02\\x02\\x28")
    >>> [event.kind.name for event in conversation], conversation.outcome.name
    (['FATAL'], 'BROKEN_OFF')
    """

    def __init__(self, limit: int = 131072) -> None:
        self._state, self._content, self._stopped = _c.Conversation(), _c.EventContent(), _c.Stop()
        _c.conversation_start(self._state, limit)
        self._buffers = {"client": _Buffer(), "server": _Buffer()}
        self._events: deque[ConversationEvent] = deque()
        self._stop: Optional[ConversationStop] = None

    def feed(self, side: str, piece: Data) -> None:
        """Adds a piece to the stream of `side`, which is "client" or "server", and follows what is
        complete.

        `ValueError` is raised for another side.
        """
        from . import _Given

        if side not in self._buffers:
            raise ValueError(f"side must be client or server, not {side}")
        held, given, to_server = self._buffers[side], _Given(piece), side == "client"

        def feed() -> int:
            return _c.conversation_feed(
                held.bytes, len(held.bytes), self._state, to_server, given.address, given.count
            )

        if feed() == _c.NO_ROOM:
            held.grow(given.count)
            feed()
        while (
            _c.conversation_next(held.bytes, len(held.bytes), self._state, to_server, self._content)
            == _c.READ
        ):
            self._add_event(to_server, held.at(self._content.content))

    def _add_event(self, to_server: bool, content: bytes) -> None:
        from . import EventKind

        read = self._content
        event = ConversationEvent(
            to_server,
            EventKind(read.kind),
            content[_HEADERS.get(read.form, 0) :],
            content[0] if read.form == _MESSAGE else None,
            _FAULTS[read.fault] if read.form == _FAULT else None,
        )
        self._events.append(event)
        if self._stop is None and _c.conversation_stop(self._state, self._stopped) == _c.READ:
            self._stop = ConversationStop(event, self._stopped.events_before)

    def __iter__(self) -> Iterator[ConversationEvent]:
        while self._events:
            yield self._events.popleft()

    @property
    def outcome(self) -> Outcome:
        """The state of the conversation."""
        from . import Outcome

        return Outcome(_c.conversation_outcome(self._state))

    @property
    def stop(self) -> Optional[ConversationStop]:
        """What ended it, if the outcome is BROKEN_OFF, UNKNOWN or NO_HANDSHAKE; else `None`."""
        return self._stop

    @property
    def established(self) -> bool:
        """Whether the readable part of the handshake is complete; in TLS 1.3 it ends with the
        ServerHello."""
        return _c.conversation_established(self._state)

    @property
    def resumed(self) -> bool:
        """Whether a session was resumed: in TLS 1.3 the ServerHello has pre_shared_key (RFC 8446,
        section 4.2.11)."""
        return _c.conversation_resumed(self._state)
