"""The application exchange of Kerberos 5 (RFC 4120, section 3.2), with the encryption types of RFC 8009.

A service makes one Service from its Keytab, and passes what clients send to it:

>>> from fevstunik import Client, CredentialCache, Keytab, Login, Service
>>> service = Service(Keytab.read("examples/service.keytab"), "host/web@EX", first_life=True)

(If a service has used one of these keys before, pass what its processes share, as store="/run/web/stamps", or else
started=time.time(), instead.) A client makes its first token from a ticket of its CredentialCache:

>>> client = Client(CredentialCache.read("examples/client.ccache"), "host/web@EX")
>>> token = client.first(now=1_700_000_100)

The service lets it in, or says why not, and the client reads what goes back:

>>> decision = service.answer(token, now=1_700_000_100)
>>> isinstance(decision, Login), decision.client
(True, 'alice@EX')
>>> client.finish(decision.reply).client
'alice@EX'
>>> print(service.answer(token, now=1_700_000_100))
REPEAT: a request of this service, client and time was seen before (ticket for host/web@EX, etype 19, kvno 3)

An Acceptor, make_request and Token are the single steps of this.

The shared library libfevstunik does all of this, and its functions are proved. What the package adds is tested, not
proved. The library overwrites what it frees, but Python's bytes stay in memory: files that were read, the data of keys,
and what calls return.
"""
from ._accepted import Accepted, Stamp
from ._bindings import tls_server_end_point
from ._caches import CacheError, CacheTrouble
from ._client import Agreed, Client, Pending, ServiceError, login, make_request
from ._codes import Code
from ._errors import Error, Fault, LibraryError
from ._files import Credential, CredentialCache, Keytab, KeytabEntry, Owner
from ._library import load, version
from ._login import Asked, Connection, Login, Service
from ._messages import Message, Messages, Order, Side
from ._service import Acceptor, Refused, Usage
from ._tokens import (
    Context, ContextFlags, GoOn, KrbError, Mechanism, Negotiation, Says, Token, TokenAnswer, Verdict, open_answer,
    read_verdict, wrap_request)
from ._values import Key, Moment, TicketFlags, TypedData, When, check_name

__all__ = [
    "CacheError", "CacheTrouble",
    "Accepted", "Acceptor", "Agreed", "Asked", "Client", "Code", "Connection", "Context", "ContextFlags", "Credential",
    "CredentialCache", "Error", "Fault", "GoOn",
    "Key", "Keytab", "KeytabEntry", "KrbError", "LibraryError", "Login", "Mechanism", "Message", "Messages", "Moment",
    "Negotiation", "Order", "Owner", "Pending", "Refused",
    "Says", "Service", "ServiceError", "Side", "Stamp", "TicketFlags", "Token", "TokenAnswer", "TypedData", "Usage",
    "Verdict", "When", "check_name", "load",
    "login", "make_request", "open_answer", "read_verdict", "tls_server_end_point", "version", "wrap_request",
]
for _name in __all__:
    if isinstance(globals()[_name], type):
        globals()[_name].__module__ = __name__
del _name
