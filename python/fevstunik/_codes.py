# Made from crates/krb_c/interface.toml by `make generate`. Don't edit this file.
"""The codes of answers, as include/fevstunik.h has them."""
from __future__ import annotations

import enum


class Code(enum.IntEnum):
    """The code of an answer. A number never changes its meaning.

    A number that this version doesn't know is a member too, with a name like ``CODE_299``: a later library may have new codes.

    >>> Code(220)
    <Code.REPEAT: 220>
    >>> Code.REPEAT.text
    'a request of this service, client and time was seen before'
    """

    OK = 0
    GO_ON = 1
    ASK_STORE = 2
    MESSAGE_TYPE = 100
    MALFORMED = 110
    USER_TO_USER = 120
    TICKET_ETYPE = 130
    NOT_US = 140
    NO_KEY = 150
    BAD_KEY_VERSION = 160
    TICKET_INTEGRITY = 170
    SESSION_KEY = 180
    AUTHENTICATOR_INTEGRITY = 190
    BAD_MATCH = 200
    SKEW = 210
    JUST_STARTED = 215
    REPEAT = 220
    NOT_YET_VALID = 230
    EXPIRED = 240
    TRANSITED = 250
    AUTHORIZATION = 260
    ANONYMOUS_CLIENT = 280
    FOREIGN_REALM = 290
    CHANNEL_BINDINGS = 300
    STORE_FAILED = 310
    LIST_MIC_MISSING = 320
    LIST_MIC_WRONG = 321
    LIST_MIC_OTHER_KEY = 322
    LIST_KEY_TYPE = 323
    OUT_OF_MEMORY = 400
    SHORT_BUFFER = 401
    EMPTY_HANDLE = 402
    NOTHING_THERE = 403
    TOO_LONG = 404
    FULL = 405
    BAD_SKEW = 410
    BAD_MOMENT = 411
    BAD_CONFOUNDER = 412
    KEY_TYPE = 413
    KEY_LENGTH = 414
    NO_CODE = 415
    BAD_OPTIONS = 416
    NO_NAME = 417
    NO_START = 418
    EARLY_START = 419
    BAD_BINDINGS = 420
    BAD_RANDOM = 421
    BAD_SAID = 422
    NOT_WAITING = 423
    SHARED = 424
    FILE_VERSION = 500
    FILE_HEADER = 501
    FILE_TRUNCATED = 502
    FILE_BAD_ITEM = 503
    NO_SUCH_ENTRY = 504
    NO_CREDENTIAL = 600
    NO_USABLE_KEY = 601
    CREDENTIAL_EXPIRED = 602
    BAD_TICKET = 603
    REPLY_TYPE = 700
    REPLY_MALFORMED = 701
    REPLY_INTEGRITY = 702
    REPLY_MISMATCH = 703
    ERROR_MALFORMED = 704
    TEXT_SHORT = 800
    TEXT_INTEGRITY = 801
    BAD_TEXT = 810
    NO_REALM = 811
    NOT_UTF8 = 812
    NOT_A_TOKEN = 900
    TOKEN_MALFORMED = 901
    TOKEN_CONTINUES = 902
    TOKEN_EMPTY = 903
    TOKEN_ID = 904
    TOKEN_UNFRAMED = 905
    OTHER_MECHANISM = 910
    NTLM = 911
    IAKERB = 912
    NESTED_NEGOTIATION = 913
    BAD_MECHANISM = 920
    BAD_VERDICT = 921
    BAD_NEGOTIATION = 922
    NEGOTIATION_OVER = 923
    CONTEXT_TRUNCATED = 930
    CONTEXT_BINDINGS = 931
    CONTEXT_DELEGATION = 932
    MESSAGE_DEFECTIVE = 940
    MESSAGE_DIRECTION = 941
    MESSAGE_OTHER_KEY = 942
    MESSAGE_INTEGRITY = 943
    MESSAGE_GAP = 944
    MESSAGE_REPEAT = 946
    MESSAGE_OLD = 947
    NUMBERS_USED_UP = 948
    BAD_ROLE = 949

    @classmethod
    def _missing_(cls, value: object) -> Code | None:
        if not isinstance(value, int):
            return None
        member = int.__new__(cls, value)
        member._name_, member._value_ = f"CODE_{value}", value
        return member

    @property
    def text(self) -> str:
        """The meaning of the code.

        >>> Code.SKEW.text
        'the clocks differ by more than the skew'
        """
        return _TEXTS.get(self, "a code that this version doesn't know")


_TEXTS = {
    Code.OK: "success",
    Code.GO_ON: "the login goes on with the client's next token",
    Code.ASK_STORE: "the store of stamps decides whether the request is a repeat",
    Code.MESSAGE_TYPE: "the first byte isn't that of a request",
    Code.MALFORMED: "the bytes aren't a request",
    Code.USER_TO_USER: "the option use-session-key is set",
    Code.TICKET_ETYPE: "the ticket's encryption type isn't 19 or 20",
    Code.NOT_US: "the ticket is for a service that isn't served here",
    Code.NO_KEY: "no key of the ticket's encryption type is usable",
    Code.BAD_KEY_VERSION: "no key of the ticket's encryption type has its version number",
    Code.TICKET_INTEGRITY: "the key doesn't open the ticket",
    Code.SESSION_KEY: "the ticket's session key isn't usable",
    Code.AUTHENTICATOR_INTEGRITY: "the session key doesn't open the authenticator",
    Code.BAD_MATCH: "the authenticator and the ticket name different clients",
    Code.SKEW: "the clocks differ by more than the skew",
    Code.JUST_STARTED: "the service has just started",
    Code.REPEAT: "a request of this service, client and time was seen before",
    Code.NOT_YET_VALID: "the ticket isn't valid yet, or is marked invalid",
    Code.EXPIRED: "the ticket has expired",
    Code.TRANSITED: "the client is of another realm, and no KDC checked the realms between",
    Code.AUTHORIZATION: "the request has authorization data that may not be ignored",
    Code.ANONYMOUS_CLIENT: "the client is anonymous",
    Code.FOREIGN_REALM: "the client is of a realm that isn't let in",
    Code.CHANNEL_BINDINGS: "the channel bindings aren't those of the connection",
    Code.STORE_FAILED: "the store of stamps doesn't answer",
    Code.LIST_MIC_MISSING: "the MIC of the client's list of mechanisms is missing",
    Code.LIST_MIC_WRONG: "the client's list of mechanisms or its MIC was changed",
    Code.LIST_MIC_OTHER_KEY: "the MIC of the client's list of mechanisms is under another key",
    Code.LIST_KEY_TYPE: "the client's subkey isn't of type 19 or 20, so it can't protect its list of mechanisms",
    Code.OUT_OF_MEMORY: "out of memory",
    Code.SHORT_BUFFER: "the buffer is too short",
    Code.EMPTY_HANDLE: "the handle is empty",
    Code.NOTHING_THERE: "the handle has no accepted request, no refusal, or no such moment",
    Code.TOO_LONG: "a file, a request, an error, a token, a name, a key or bindings are longer than their limit",
    Code.FULL: "the service remembers as many requests as it may, of all clients or of this one",
    Code.BAD_SKEW: "the skew is more than 86,400 seconds",
    Code.BAD_MOMENT: "the moment is outside the years 0000 to 9999, or has 1,000,000 microseconds or more",
    Code.BAD_CONFOUNDER: "the confounder isn't 16 bytes long",
    Code.KEY_TYPE: "the key's encryption type isn't 19 or 20",
    Code.KEY_LENGTH: "the key isn't 16 bytes long (type 19) or 32 (type 20)",
    Code.NO_CODE: "there is no error to send: memory ran out, or the code isn't that of a cause",
    Code.BAD_OPTIONS: "the options are those of another version of the library",
    Code.NO_NAME: "no name to serve is given",
    Code.NO_START: "it isn't said how repeats are refused after a start",
    Code.EARLY_START: "the start is before the year 2020",
    Code.BAD_BINDINGS: "there is no such rule for channel bindings, or it has no bindings to compare with",
    Code.BAD_RANDOM: "there are fewer or more random bytes than the service needs",
    Code.BAD_SAID: "the number isn't one of what a store of stamps says",
    Code.NOT_WAITING: "the login doesn't wait for a store of stamps",
    Code.SHARED: "the service shares a store of stamps, which this call doesn't ask",
    Code.FILE_VERSION: "the file doesn't begin with 05 02 (a keytab), or with 05 03 or 05 04 (a cache)",
    Code.FILE_HEADER: "the header of the cache is malformed",
    Code.FILE_TRUNCATED: "the keytab ends within a record",
    Code.FILE_BAD_ITEM: "an entry of the keytab, or the cache's principal or a credential, is invalid",
    Code.NO_SUCH_ENTRY: "the file or the request has no item of this index",
    Code.NO_CREDENTIAL: "the cache has no ticket of its default principal for the service",
    Code.NO_USABLE_KEY: "no ticket for the service has a usable session key",
    Code.CREDENTIAL_EXPIRED: "no usable ticket for the service ends later than the moment",
    Code.BAD_TICKET: "the credential's ticket isn't a valid ticket",
    Code.REPLY_TYPE: "the first byte isn't that of a reply",
    Code.REPLY_MALFORMED: "the bytes aren't a reply",
    Code.REPLY_INTEGRITY: "the session key doesn't open the reply",
    Code.REPLY_MISMATCH: "the reply's time isn't the request's",
    Code.ERROR_MALFORMED: "the bytes aren't a KRB-ERROR",
    Code.TEXT_SHORT: "the text has fewer bytes than a sealed empty text: 32 (type 19) or 40 (type 20)",
    Code.TEXT_INTEGRITY: "the tag is wrong",
    Code.BAD_TEXT: "the text isn't a valid name",
    Code.NO_REALM: "the text has no unescaped `@`",
    Code.NOT_UTF8: "the text isn't UTF-8",
    Code.NOT_A_TOKEN: "the first byte isn't that of a token",
    Code.TOKEN_MALFORMED: "the bytes aren't a token",
    Code.TOKEN_CONTINUES: "the token continues a negotiation, and doesn't begin one",
    Code.TOKEN_EMPTY: "the negotiation has no token of Kerberos",
    Code.TOKEN_ID: "the token of Kerberos holds a message of another kind",
    Code.TOKEN_UNFRAMED: "a request without a token around it, as clients of DCE style send it",
    Code.OTHER_MECHANISM: "the mechanism isn't Kerberos",
    Code.NTLM: "the mechanism is NTLM, not Kerberos",
    Code.IAKERB: "the mechanism is IAKERB, not Kerberos",
    Code.NESTED_NEGOTIATION: "the mechanism is a nested negotiation, not Kerberos",
    Code.BAD_MECHANISM: "the number isn't that of a mechanism",
    Code.BAD_VERDICT: "the numbers aren't those of a verdict",
    Code.BAD_NEGOTIATION: "the numbers aren't those of a negotiation",
    Code.NEGOTIATION_OVER: "the negotiation is over: it has taken a request, or refused a token",
    Code.CONTEXT_TRUNCATED: "the checksum of type 0x8003 is cut off",
    Code.CONTEXT_BINDINGS: "the length of the bindings in the checksum of type 0x8003 isn't 16",
    Code.CONTEXT_DELEGATION: "the delegation option in the checksum of type 0x8003 isn't 1",
    Code.MESSAGE_DEFECTIVE: "the bytes aren't a message of this kind",
    Code.MESSAGE_DIRECTION: "the message was sent back: it is one of the side that reads it",
    Code.MESSAGE_OTHER_KEY: "the message is under another key",
    Code.MESSAGE_INTEGRITY: "the message or its text was changed",
    Code.MESSAGE_GAP: "messages before this one are missing",
    Code.MESSAGE_REPEAT: "the message was taken before",
    Code.MESSAGE_OLD: "the message is too old to know whether it was taken before",
    Code.NUMBERS_USED_UP: "the message with the last number was sent",
    Code.BAD_ROLE: "the number isn't that of a side",
}
