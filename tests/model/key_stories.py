"""Fixed tapes of routes with passphrases: the cases of sessions with keys that random tapes seldom have."""
from __future__ import annotations

import material
import packets
from callers import Caller, Publisher, Subscriber
from clock_stories import OFTEN, wait_until
from material import CHANGES, OTHER_NAME, Material
from plots import PASSPHRASES
from rules.ciphers import KEY_LENGTHS, ciphered
from rules.key_material import Which
from rules.numbers import SECOND
from rules.publisher import LIGHT_ACK_AFTER
from rules.session_keys import ANNOUNCED_AGAIN, BAD_SECRET, GIVEN_UP_AFTER, GROUP_AHEAD, NO_SECRET, ROUTE_AHEAD
from rules.subscriber import Subscriber as SessionOfSubscriber
from stories import BOTH, LATER, WHOLE_MESSAGE, Story, story_of

PUBLISH = ('publish_passphrase = "{publish_passphrase}"'.format(**PASSPHRASES),)
REQUEST = ('request_passphrase = "{request_passphrase}"'.format(**PASSPHRASES),)
OF_PUBLISHERS = frozenset({"callers", "publish_passphrase"})
OF_SUBSCRIBERS = frozenset({"callers", "request_passphrase"})
OF_BOTH = OF_PUBLISHERS | OF_SUBSCRIBERS
OFTEN_ENOUGH = 22  # So many callers with a wrong passphrase are more than may derive keys at once.


class KeyStory(Story):
    """A tape of a route with passphrases, to which the right callers come with right keys."""

    def new(self, kind: type[Caller], address: int = 0, reports: bool = True, delays: tuple[int, int] | None = None, length: int = 16) -> Caller:
        caller = super().new(kind, address, reports, delays)
        self.gives(caller, caller.target.passphrases.get(caller.role), length)
        return caller

    def gives(self, caller: Caller, passphrase: str | None, length: int = 16) -> None:
        """Gives a caller keys of some length, with an even one at first; none without a passphrase."""
        caller.material = None if passphrase is None else Material(self.world.random, passphrase, length)
        if caller.material is not None:
            caller.material.current = Which.EVEN

    def calls(self, caller: Caller) -> None:
        its = caller.material
        self.concludes(caller, caller.plain_blocks() + (b"" if its is None else material.block(its.message(Which.EVEN))))
        self.notes(caller)

    def packet(self, caller: Caller, number: int, payload: bytes, early: int, flags: int = WHOLE_MESSAGE) -> None:
        """A data packet under the caller's key, if it has one."""
        if caller.material is None:
            super().packet(caller, number, payload, early, flags)
        else:
            self.under(caller, number, caller.material.current, payload, early)

    def under(self, caller: Caller, number: int, which: Which, payload: bytes = b"under a key", early: int = 0) -> None:
        """A data packet with this KK."""
        its = key_of(caller)
        key = its.named(which) if which in OTHER_NAME else None
        word = (caller.initial + number) % packets.NUMBERS
        content = payload if key is None else ciphered(key, its.salt, word, payload)
        super().packet(caller, number, content, early, WHOLE_MESSAGE | which << 27)

    def asks(self, caller: Caller, message: bytes, subtype: int = packets.KMREQ) -> None:
        self.control(caller, packets.USER_DEFINED, 0, message, subtype)

    def session(self, caller: Caller) -> SessionOfSubscriber:
        session = self.world.session_of(caller)
        assert isinstance(session, SessionOfSubscriber)
        return session

    def announced(self, caller: Caller) -> bytes:
        """The message of the key that a subscriber has to confirm."""
        keys = self.session(caller).keys
        assert keys is not None
        return keys.message(keys.confirmed)

    def confirms(self, caller: Caller) -> None:
        self.asks(caller, self.announced(caller), packets.KMRSP)


def key_of(caller: Caller) -> Material:
    assert caller.material is not None
    return caller.material


# Publishers.


@story_of(KeyStory, OF_PUBLISHERS, *BOTH, more=PUBLISH)
def brings_keys(it: KeyStory) -> None:
    """Each kind of KMREQ that isn't let in, one of each length that is, and its conclusion again with other ones."""
    caller = it.new(Publisher)
    right = key_of(caller).message(Which.EVEN)
    wrong = [b"", right[:12], right[:-4], right + bytes(4), *(right[:at] + bytes([value]) + right[at + 1:] for at, values in CHANGES for value in values)]
    several = [b"", 2 * material.block(right), *map(material.block, wrong)]
    for keys in several[:30]:
        it.concludes(caller, caller.plain_blocks() + keys)
        it.wait(SECOND)
    it.calls(caller)
    for keys in several + [material.block(material.other(it.world.random, key_of(caller)))]:
        it.concludes(caller, keys + caller.plain_blocks())
    it.data(caller, 0, 3)
    for length in KEY_LENGTHS:
        other = it.new(Publisher, 1, length=length)
        it.calls(other)
        it.data(other, 0, 3)
        it.wait()
        it.shuts(other)
    subscriber = it.subscriber(2)
    it.gives(subscriber, "a passphrase in vain")
    it.calls(subscriber)


@story_of(KeyStory, OF_PUBLISHERS, *BOTH, more=PUBLISH)
def brings_other_keys(it: KeyStory) -> None:
    """A conclusion with both keys, one with the odd one alone, and one with a wrong passphrase."""
    it.subscriber()
    for which in (Which.BOTH, Which.ODD):
        caller = it.new(Publisher)
        it.concludes(caller, caller.plain_blocks() + material.block(key_of(caller).message(which)))
        it.notes(caller)
        for number, name in enumerate((Which.EVEN, Which.ODD, Which.EVEN, Which.NONE, Which.ODD)):
            it.under(caller, number, name, early=-SECOND)
        it.wait()
        it.shuts(caller)
    stranger = it.new(Publisher)
    it.gives(stranger, "a wrong passphrase")
    it.calls(stranger)


@story_of(KeyStory, OF_PUBLISHERS, *BOTH, more=PUBLISH, buffer=256)
def is_under_each_key(it: KeyStory) -> None:
    """Packets in clear, under a key that isn't there and under both aren't received and don't count for a Light ACK; they are received when
    they come again under a key."""
    it.subscriber()
    caller = it.publisher()
    names = (Which.EVEN, Which.NONE, Which.ODD, Which.BOTH)
    for number in range(2 * LIGHT_ACK_AFTER):
        it.under(caller, number, names[number % 4], early=LATER)
    it.asks(caller, key_of(caller).message(Which.BOTH))
    for number in range(2 * LIGHT_ACK_AFTER):
        it.under(caller, number, names[number // 64 * 2], early=LATER)
    it.wait(3 * LATER)
    it.wait(3 * LATER)


@story_of(KeyStory, OF_PUBLISHERS, "live", more=PUBLISH)
def loses_its_window_under_a_key(it: KeyStory) -> None:
    """Far numbers end the session only if they can be decrypted."""
    caller = it.publisher()
    for which in (Which.NONE, Which.ODD, Which.BOTH, Which.EVEN):
        it.under(caller, 100, which)
    it.wait()


@story_of(KeyStory, OF_PUBLISHERS, *BOTH, more=PUBLISH)
def renews_keys(it: KeyStory) -> None:
    """KMREQs of each kind, while payloads wait that came under the keys before, from the active publisher and from the standby."""
    first, second = it.publisher(), it.publisher(1)
    subscriber = it.subscriber(2) if it.mode == "live" else None
    for caller in (first, second):
        its = key_of(caller)
        it.data(caller, 0, 2, early=LATER)
        right = its.message(Which.EVEN)
        for at, values in CHANGES:
            for value in values:
                it.asks(caller, right[:at] + bytes([value]) + right[at + 1:])
        for body in (b"", b"abc", right[:-1], right + bytes(40), NO_SECRET, BAD_SECRET):
            it.asks(caller, body)
        for length in KEY_LENGTHS:
            stranger = Material(it.world.random, "a wrong passphrase", length)
            stranger.salt = its.salt
            it.asks(caller, stranger.message(Which.EVEN))
        for subtype in (packets.KMRSP, 0, 5, 0xFFFF):
            it.asks(caller, its.message(Which.ODD), subtype)
        it.under(caller, 2, Which.ODD, early=LATER)
        for which in (Which.ODD, Which.ODD, Which.EVEN, Which.BOTH):
            its.keys[which if which in OTHER_NAME else Which.EVEN] = it.world.random.randbytes(16)
            it.asks(caller, its.message(which))
            it.asks(caller, its.message(which))
            it.under(caller, 3, Which.EVEN, early=LATER)
            it.under(caller, 2, Which.ODD, early=LATER)
    it.wait(4 * LATER)
    it.shuts(first)
    it.asks(first, key_of(first).message(Which.BOTH))
    it.data(second, 4, 3)
    it.asks(subscriber or it.subscriber(2), key_of(second).message(Which.BOTH))
    it.wait(4 * LATER)


@story_of(KeyStory, OF_PUBLISHERS, *BOTH, more=PUBLISH)
def renews_keys_while_it_drains(it: KeyStory) -> None:
    caller = it.publisher()
    it.data(caller, 0, 3, LATER if it.mode == "live" else 0)
    it.shuts(caller)
    it.asks(caller, key_of(caller).message(Which.BOTH))
    it.calls(caller)
    it.asks(caller, key_of(caller).message(Which.BOTH))
    it.wait()


@story_of(KeyStory, OF_PUBLISHERS, "live", more=(*PUBLISH, "takeover_ms = 200"))
def takes_over_with_keys(it: KeyStory) -> None:
    """Packets that can't be decrypted bring nothing: the standby takes over, each with keys of its own."""
    first, second = it.publisher(), it.publisher(1)
    it.subscriber()
    for number in range(12):
        it.under(first, number, Which.EVEN if number < 3 else Which.ODD)
        it.under(second, number, Which.EVEN if number < 9 else Which.NONE)
        it.wait(LATER // 2)


@story_of(KeyStory, OF_PUBLISHERS, *BOTH, more=PUBLISH)
def derives_too_often(it: KeyStory) -> None:
    """Many callers with a wrong passphrase, at the moments of the route's limit and of a group's, and next to them. Who is refused for
    another reason doesn't count, nor does one whose session is open."""
    caller = it.publisher()

    def come(address: int, count: int = 1) -> None:
        for _ in range(count):
            stranger = it.new(Publisher, address)
            it.gives(stranger, "a wrong passphrase")
            it.calls(stranger)

    def come_until(moment: int, *addresses: int) -> None:
        for beside in (-1, 0, 1):
            wait_until(it, moment + beside, caller)
            for address in addresses:
                come(address)

    limit = it.world.player.hub.lanes[0].route.derivations
    come(0, OFTEN_ENOUGH)
    it.calls(caller)
    come_until(limit.route - ROUTE_AHEAD, 1, 2)
    come_until(max(limit.groups) - GROUP_AHEAD, 0, 0, 3)
    other = it.publisher(1)
    come(2, 5)
    wait_until(it, it.world.now + 30 * SECOND, caller, other)
    it.shuts(other)
    come(2, OFTEN_ENOUGH)


# Subscribers.


@story_of(KeyStory, OF_SUBSCRIBERS, *BOTH, more=REQUEST)
def announces_a_key(it: KeyStory) -> None:
    """A key is announced each 50 ms until it is confirmed; then what was held goes, and again if it is lost."""
    publisher, subscriber = it.publisher(), it.subscriber()
    it.data(publisher, 0, 3, early=-2 * SECOND)
    opened = it.world.now
    for beside in (-1, 0, 1):
        wait_until(it, opened + ANNOUNCED_AGAIN + beside, publisher)
    it.alive(publisher, subscriber)
    wait_until(it, opened + SECOND, publisher, subscriber)
    it.confirms(subscriber)
    it.confirms(subscriber)
    it.data(publisher, 3, 2, early=-2 * SECOND)
    it.control(subscriber, packets.NAK, 0, packets.words((subscriber.initial + 4) % packets.NUMBERS))
    it.acks(subscriber, 2)
    it.wait(SECOND)


@story_of(KeyStory, OF_SUBSCRIBERS, *BOTH, more=REQUEST)
def confirms_wrongly(it: KeyStory) -> None:
    """KMRSPs with other contents, also of another subscriber's key, and KMREQs confirm nothing."""
    publisher, subscriber, other = it.publisher(), it.subscriber(), it.subscriber(1)
    it.data(publisher, 0, 3, early=-2 * SECOND)
    message = it.announced(subscriber)
    wrong = (b"", NO_SECRET, BAD_SECRET, bytes(4), message[:-1], message + b"\0", message[:-1] + bytes([message[-1] ^ 1]), it.announced(other),
             key_of(subscriber).message(Which.EVEN))
    for body in wrong:
        it.asks(subscriber, body, packets.KMRSP)
    for subtype in (packets.KMREQ, 0, 2, 5):
        it.asks(subscriber, message, subtype)
    it.asks(publisher, message, packets.KMRSP)
    it.wait()
    it.confirms(other)
    it.wait()
    it.confirms(subscriber)


def gives_up(it: KeyStory) -> None:
    """Who doesn't confirm is given up after five seconds; who says nothing ends at the same time."""
    publisher, subscriber, silent = it.publisher(), it.subscriber(), it.subscriber(1)
    it.data(publisher, 0, 3, early=-2 * SECOND)
    opened = it.session(silent).opening.moment
    it.world.now += OFTEN
    for beside in (-1, 0):
        wait_until(it, opened + GIVEN_UP_AFTER + beside, publisher, subscriber)
    it.calls(subscriber)
    it.confirms(subscriber)
    wait_until(it, it.world.now + 2 * GIVEN_UP_AFTER, publisher, subscriber)


story_of(KeyStory, OF_SUBSCRIBERS, *BOTH, more=REQUEST)(gives_up)


@story_of(KeyStory, OF_SUBSCRIBERS, *BOTH, more=REQUEST, callers="draft")
def gives_up_without_a_word(it: KeyStory) -> None:
    gives_up(it)


@story_of(KeyStory, OF_SUBSCRIBERS, "live", more=REQUEST)
def expires_while_it_is_held(it: KeyStory) -> None:
    """Payloads expire before the key is confirmed; a NAK of them is answered by a DROPREQ, and the key is announced behind it."""
    publisher, subscriber = it.publisher(), it.subscriber(delays=(20, 20))
    for number in range(30):
        it.data(publisher, number, early=-2 * SECOND)
        it.wait(LATER)
        it.alive(subscriber)
    first = subscriber.initial % packets.NUMBERS
    it.world.now += ANNOUNCED_AGAIN
    it.control(subscriber, packets.NAK, 0, packets.words(0x80000000 | first, (first + 3) % packets.NUMBERS))
    it.confirms(subscriber)
    it.wait()


@story_of(KeyStory, OF_SUBSCRIBERS, "buffer", more=REQUEST)
def holds_others_back(it: KeyStory) -> None:
    """In buffer mode one whose key isn't confirmed holds the others back when its window is full, until it is given up."""
    publisher, first, second = it.publisher(), it.subscriber(), it.subscriber(1)
    it.confirms(first)
    it.data(publisher, 0, 20)
    it.acks(first, 20)
    it.data(publisher, 20, 20)
    it.acks(first, 32)
    opened = it.session(second).opening.moment
    wait_until(it, opened + GIVEN_UP_AFTER, publisher, first, second)
    it.data(publisher, 40, 2)


@story_of(KeyStory, OF_SUBSCRIBERS, "buffer", more=REQUEST)
def files_end_under_a_key(it: KeyStory) -> None:
    """A file ends for one that has all of it, also with nothing at all before its key is confirmed."""
    publisher, first = it.publisher(), it.subscriber()
    it.confirms(first)
    it.data(publisher, 0, 4)
    it.acks(first, 4)
    it.subscriber(1)
    it.wait(ANNOUNCED_AGAIN)
    it.shuts(publisher)
    it.wait()


@story_of(KeyStory, OF_SUBSCRIBERS, "buffer", more=REQUEST)
def announces_before_the_end_of_a_file(it: KeyStory) -> None:
    """A KMREQ that is due as a file ends goes before the SHUTDOWN; a microsecond earlier none is due."""
    for beside in (0, -1):
        publisher, subscriber = it.publisher(), it.subscriber()
        it.world.now = it.session(subscriber).opening.moment + ANNOUNCED_AGAIN + beside
        it.shuts(publisher)
        it.wait()


@story_of(KeyStory, OF_SUBSCRIBERS, *BOTH, more=REQUEST)
def comes_again_and_again(it: KeyStory) -> None:
    """The same conclusion opens one session after the other, each with a key of its own; beside it others come with keys of each length."""
    publisher, subscriber = it.publisher(), it.subscriber()
    for number in range(3):
        it.confirms(subscriber)
        it.data(publisher, number, early=-2 * SECOND)
        it.acks(subscriber, 1)
        it.shuts(subscriber)
        it.calls(subscriber)
        it.concludes(subscriber, subscriber.plain_blocks() + material.block(material.other(it.world.random, key_of(subscriber))))
    it.shuts(subscriber)
    for length in KEY_LENGTHS:
        other = it.new(Subscriber, 1, length=length)
        it.calls(other)
        it.confirms(other)
        it.data(publisher, 10 + length, early=-2 * SECOND)
        it.shuts(other)
    stranger = it.new(Subscriber, 2)
    it.gives(stranger, "a wrong passphrase")
    it.calls(stranger)
    it.gives(stranger, None)
    it.calls(stranger)


@story_of(KeyStory, OF_BOTH, *BOTH, more=(*PUBLISH, *REQUEST))
def derives_for_both_roles(it: KeyStory) -> None:
    """Callers of both roles count together."""
    publisher = it.publisher()
    for number in range(OFTEN_ENOUGH):
        stranger = it.new(Subscriber if number % 2 else Publisher, number % 4)
        it.gives(stranger, "a wrong passphrase")
        it.calls(stranger)
    it.subscriber(1)
    limit = it.world.player.hub.lanes[0].route.derivations
    wait_until(it, limit.route - ROUTE_AHEAD, publisher)
    subscriber = it.subscriber(1)
    it.confirms(subscriber)
    it.data(publisher, 0, 3, early=-2 * SECOND)
    wait_until(it, it.world.now + 30 * SECOND, publisher, subscriber)
    for number in range(OFTEN_ENOUGH):
        stranger = it.new(Subscriber, 2)
        it.gives(stranger, "a wrong passphrase")
        it.calls(stranger)
    it.acks(subscriber, 3)
