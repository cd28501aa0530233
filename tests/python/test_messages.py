"""Messages after a login, and SASL's mechanism GSSAPI, between the package's own sides: what is taken, and what is
refused."""
import asyncio
import copy
import pickle
import threading
import time

import pytest

from fevstunik import Client, CredentialCache, Fault, Key, Keytab, Message, Messages, Moment, Order, Service, Side, sasl
from fevstunik.sasl import Layer, SaslError

NOW = 1_700_000_100
KEYTAB, CACHE, NAME = "examples/service.keytab", "examples/client.ccache", "host/web@EX"


def sides(kind=20, **options):
    key = Key.random(kind)
    return Messages(Side.CLIENT, key, **options), Messages(Side.SERVICE, key, **options)


def fault_of(call, *words, **more):
    with pytest.raises(Fault) as found:
        call(*words, **more)
    return found.value.name


def test_texts():
    client, service = sides()
    for size in (0, 1, 1000, 70_000):
        for sealed in (True, False):
            opened = service.unwrap(client.wrap(bytes(size), sealed=sealed))
            assert (opened.text, opened.sealed, opened.order) == (bytes(size), sealed, Order.NEXT)
    assert [service.verify_mic(b"text", client.mic(memoryview(b"text"))) for _ in range(2)] == [Order.NEXT] * 2


def test_order():
    client, service = sides()
    first, second = client.wrap(b"1"), client.wrap(b"2")
    assert fault_of(service.unwrap, second) == "MESSAGE_GAP"
    assert service.unwrap(first).text == b"1"
    assert fault_of(service.unwrap, first) == "MESSAGE_REPEAT"
    assert service.unwrap(second).text == b"2"
    assert fault_of(client.unwrap, second) == "MESSAGE_DIRECTION"


def test_any_order():
    client, service = sides(any_order=True)
    tokens = [client.wrap(bytes([at])) for at in range(70)]
    assert [service.unwrap(tokens[at]).order.name for at in (68, 5)] == ["GAP", "LATE"]
    assert [fault_of(service.unwrap, tokens[at]) for at in (5, 0)] == ["MESSAGE_REPEAT", "MESSAGE_OLD"]
    assert service.unwrap(tokens[69]).order.name == "NEXT"


def test_repeats():
    client, service = sides(any_order=True, repeats=True)
    tokens = [client.wrap(bytes([at])) for at in range(70)]
    assert [service.unwrap(tokens[at]).order.name for at in (68, 5, 5, 0, 69)] == [
        "GAP",
        "LATE",
        "REPEAT",
        "OLD",
        "NEXT",
    ]


def test_first_numbers():
    client, service = sides(client_seq=2**32 - 1, service_seq=7)
    assert service.unwrap(client.wrap(b"")).number == 2**32 - 1
    assert service.unwrap(client.wrap(b"")).number == 2**32
    assert client.unwrap(service.wrap(b"")).number == 7


def test_keys():
    """The service's subkey counts before the client's, and that before the session key."""
    session, mine, theirs = Key.random(19), Key.random(20), Key.random(19)
    every = dict(client_subkey=mine, service_subkey=theirs)
    one, other = Messages(Side.CLIENT, session, **every), Messages(
        Side.SERVICE, Key.random(20), client_subkey=Key.random(19), service_subkey=theirs
    )
    assert other.unwrap(one.wrap(b"text")).text == b"text"
    other = Messages(Side.SERVICE, session, client_subkey=mine)
    assert fault_of(other.unwrap, one.wrap(bytes(40))) == "MESSAGE_OTHER_KEY"
    other = Messages(Side.SERVICE, session)
    one = Messages(Side.CLIENT, session, client_subkey=mine)
    assert fault_of(other.unwrap, one.wrap(b"text")) == "MESSAGE_INTEGRITY"


def test_misuse():
    key = Key.random(20)
    for words in ((Side.CLIENT, Key(18, bytes(32))), (Side.CLIENT, Key(20, bytes(31)))):
        assert fault_of(Messages, *words) in ("KEY_TYPE", "KEY_LENGTH")
    for words, more in (
        ((3, key), {}),
        ((Side.CLIENT, key), {"client_seq": -1}),
        ((Side.CLIENT, key), {"service_seq": 2**32}),
    ):
        with pytest.raises((ValueError, OverflowError)):
            Messages(*words, **more)
    side = Messages(Side.CLIENT, key)
    for call in (pickle.dumps, copy.copy, copy.deepcopy):
        with pytest.raises(TypeError):
            call(side)
    with pytest.raises(TypeError):
        side.wrap("text")
    assert fault_of(side.limit, 71) == "TOO_LONG" and side.limit(72) == 0
    assert fault_of(side.unwrap, b"") == fault_of(side.verify_mic, b"", b"") == "MESSAGE_DEFECTIVE"
    with pytest.raises(Fault, match="the text comes first, and then the token"):
        side.verify_mic(side.mic(b"text"), b"text")
    side.close()
    side.close()
    assert fault_of(side.wrap, b"") == fault_of(side.mic, b"") == fault_of(side.unwrap, b"") == "EMPTY_HANDLE"


def test_shown():
    assert (
        repr(Message(b"secret", True, 3, Order.NEXT))
        == "Message(text=<6 bytes>, sealed=True, number=3, order=<Order.NEXT: 0>)"
    )
    assert "Key" not in repr(sides()[0])


# ---- SASL


def begun(layers=Layer.ANY, client_layers=Layer.ANY, authorize=lambda login, name: True, name="", size=65_536):
    service = Service(Keytab.read(KEYTAB), NAME, first_life=True)
    server = sasl.Server(service, authorize=authorize, layers=layers, size=size)
    return server, sasl.Client(CredentialCache.read(CACHE), NAME, name=name, layers=client_layers)


def logged_in(**options):
    server, client = begun(**options)
    challenge = b""
    while not server.is_done:
        challenge = server.step(client.step(challenge, now=NOW), now=NOW)
    assert challenge == b"" and client.is_done
    return server, client


@pytest.mark.parametrize("layer", [Layer.NONE, Layer.INTEGRITY, Layer.CONFIDENTIALITY], ids=lambda it: it.name)
def test_layers(layer):
    for one, other in ((layer, Layer.ANY), (Layer.ANY, layer)):
        server, client = logged_in(layers=one, client_layers=other)
        assert server.layer == client.layer == layer and server.login.client == "alice@EX" and server.name == ""
        data = bytes(range(256)) * 1000
        sent = client.encode(data)
        assert b"".join(server.decode(sent[at : at + 777]) for at in range(0, len(sent), 777)) == data
        assert client.decode(server.encode(b"")) == b"" and client.decode(server.encode(b"x")) == b"x"


def test_strongest_common_layer():
    assert logged_in(layers=Layer.NONE | Layer.INTEGRITY)[0].layer == Layer.INTEGRITY
    server, client = begun(layers=Layer.NONE, client_layers=Layer.PROTECTED)
    challenge = server.step(client.step(b"", now=NOW), now=NOW)
    challenge = server.step(client.step(challenge))
    with pytest.raises(SaslError, match="no layer that this client takes"):
        client.step(challenge)


def test_names():
    asked = []

    def authorize(login, name):
        asked.append((login.client, name))
        return name == "anna"

    assert logged_in(authorize=authorize, name="anna")[0].name == "anna" and asked == [("alice@EX", "anna")]
    server, client = begun(authorize=authorize, name="otto")
    challenge = server.step(client.step(b"", now=NOW), now=NOW)
    response = client.step(server.step(client.step(challenge)))
    with pytest.raises(SaslError, match="may not act as the name"):
        server.step(response)
    for call in (
        lambda: server.step(response),
        lambda: server.login,
        lambda: server.name,
        lambda: server.layer,
        lambda: server.encode(b"x"),
    ):
        with pytest.raises(SaslError):
            call()


def test_only_true_lets_in():
    for said in (None, 1, "yes"):
        with pytest.raises(SaslError, match="may not act"):
            logged_in(authorize=lambda login, name, said=said: said)


def test_a_failing_application_ends_the_login():
    """What `authorize` raises leaves the side over, so nobody can try another name."""

    def authorize(login, name):
        raise KeyError(name)

    server, client = begun(authorize=authorize)
    challenge = server.step(client.step(b"", now=NOW), now=NOW)
    response = client.step(server.step(client.step(challenge)))
    with pytest.raises(KeyError):
        server.step(response)
    with pytest.raises(SaslError, match="the login is over"):
        server.step(response)


def test_no_layer_has_no_size():
    server, client = begun()
    challenge = server.step(client.step(b"", now=NOW), now=NOW)
    server.step(client.step(challenge))
    with pytest.raises(SaslError, match="names a size"):
        server.step(client._open_messages().wrap(bytes([Layer.NONE, 0, 0, 1]), sealed=False))


@pytest.mark.parametrize("size", [b"\1\0\0", b"\0\0\1"])
def test_an_offer_of_no_layer_has_no_size(size):
    server, client = begun()
    client.step(server.step(client.step(b"", now=NOW), now=NOW))
    with pytest.raises(SaslError, match="names a size"):
        client.step(server._open_messages().wrap(bytes([Layer.NONE]) + size, sealed=False))


def test_a_subkey_of_another_type():
    """A client whose subkey isn't of the two types, at a service that has none, ends by SaslError."""
    server, client = begun()
    server._begin_messages = lambda made: sasl.Server._begin_messages(
        server, lambda: Messages(Side.SERVICE, Key(18, bytes(32)))
    )
    with pytest.raises(SaslError, match="subkey isn't taken"):
        server.step(client.step(b"", now=NOW), now=NOW)
    with pytest.raises(SaslError, match="over"):
        server.step(b"")


def test_close():
    server, client = logged_in()
    with server, client:
        assert server.login.stamp is not None
    for side in (server, client):
        side.close()
        assert fault_of(side.encode, b"x") == "EMPTY_HANDLE"
    with pytest.raises(ValueError):
        begun(layers=12)
    with pytest.raises(ValueError):
        begun(client_layers=257)


class SlowStore:
    """A store whose answer waits until `goes_on` is set."""

    remembers_from, largest_skew = Moment(1_600_000_000, 0), 300

    def __init__(self):
        self.goes_on = threading.Event()

    def add(self, stamp, keep_until):
        assert self.goes_on.wait(300)
        return True


def test_steps_of_tasks():
    """While the store of one login waits, another task runs. A step of the same login ends that login."""
    store = SlowStore()
    service = Service(Keytab.read(KEYTAB), NAME, store=store)
    clients = [sasl.Client(CredentialCache.read(CACHE), NAME) for _ in range(2)]
    servers = [sasl.Server(service, authorize=lambda login, name: True) for _ in clients]

    async def logins():
        tokens = [it.step(b"", now=NOW + place) for place, it in enumerate(clients)]
        first = [asyncio.create_task(at.step_async(it, now=NOW)) for it, at in zip(tokens, servers)]
        while any(at._next != at._interrupted for at in servers):
            await asyncio.sleep(0)
        with pytest.raises(SaslError, match="before the last one ended"):
            await servers[1].step_async(b"")
        store.goes_on.set()
        return await asyncio.gather(*first)

    challenge, _ = asyncio.run(logins())
    client, server = clients[0], servers[0]
    while not server.is_done:
        challenge = asyncio.run(server.step_async(client.step(challenge), now=NOW))
    assert server.login.client == "alice@EX" and server.decode(client.encode(b"text")) == b"text"
    with pytest.raises(SaslError, match="the login is over"):
        asyncio.run(servers[1].step_async(b""))


def test_a_task_that_fails_ends_the_login():
    server, client = begun()
    with pytest.raises(SaslError, match="SKEW"):
        asyncio.run(server.step_async(client.step(b"", now=NOW), now=NOW + 1_000))
    with pytest.raises(SaslError, match="over"):
        server.step(b"")


def test_refused():
    server, client = begun()
    token = client.step(b"", now=NOW)
    with pytest.raises(SaslError) as found:
        server.step(token, now=NOW + 1_000)
    assert found.value.refused.cause.name == "SKEW"
    for response in (b"", b"hello", bytes.fromhex("601b06062b0601050502a011300fa00d300b06092a864886f712010202")):
        with pytest.raises(SaslError):
            begun()[0].step(response)


def test_no_negotiation():
    """A token of Kerberos in a negotiation isn't part of the mechanism."""
    server, _ = begun()
    with pytest.raises(SaslError, match="negotiation"):
        server.step(Client(CredentialCache.read(CACHE), NAME).first(now=NOW), now=NOW)


def test_bent():
    for bend in range(3):
        server, client = begun()
        challenge = server.step(client.step(b"", now=NOW), now=NOW)
        if bend == 0:
            with pytest.raises(SaslError):
                client.step(challenge[:-1] + bytes([challenge[-1] ^ 1]))
            continue
        response = client.step(challenge)
        if bend == 1:
            with pytest.raises(SaslError, match="answers the reply with data"):
                server.step(response + b"x")
            continue
        response = client.step(server.step(response))
        with pytest.raises(SaslError):
            server.step(response[:-1] + bytes([response[-1] ^ 1]))


@pytest.mark.parametrize("bent", ["changed", "left out", "too long"])
def test_data_that_is_bent(bent):
    """After data that is invalid, nothing is read any more."""
    server, client = logged_in()
    one, two = client.encode(b"one"), client.encode(b"two")
    received = {"changed": one[:-1] + bytes([one[-1] ^ 1]), "left out": two, "too long": (65_537).to_bytes(4, "big")}[
        bent
    ]
    with pytest.raises(SaslError):
        server.decode(received)
    with pytest.raises(SaslError, match="before this was invalid"):
        server.decode(one)


def test_data_again():
    server, client = logged_in()
    one = client.encode(b"one")
    assert server.decode(one) == b"one"
    with pytest.raises(SaslError, match="MESSAGE_REPEAT"):
        server.decode(one)


def test_many_tokens_at_once():
    """They take a time that grows with their number, and not with its square. What isn't whole is kept."""
    server, client = logged_in()
    sent, before = b"".join(client.encode(b"x") for _ in range(80_000)), time.process_time()
    assert server.decode(sent[:-1]) == b"x" * 79_999
    assert server.decode(sent[-1:]) == b"x" and time.process_time() - before < 20


def test_plain_data_under_confidentiality():
    server, client = logged_in(layers=Layer.CONFIDENTIALITY)
    token = client._open_messages().wrap(b"text", sealed=False)
    with pytest.raises(SaslError, match="isn't sealed"):
        server.decode(len(token).to_bytes(4, "big") + token)


def test_sizes():
    server, client = logged_in(size=200)
    sent = client.encode(bytes(1000))
    sizes = []
    while sent:
        size = int.from_bytes(sent[:4], "big")
        sizes.append(size)
        sent = sent[4 + size :]
    assert len(sizes) > 1 and max(sizes) <= 200
    for size in (0, 127, 1 << 24):
        with pytest.raises(ValueError):
            begun(size=size)
    with pytest.raises(ValueError):
        begun(layers=Layer(0))
