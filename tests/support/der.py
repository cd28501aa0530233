"""Writes DER (X.690), and the messages of RFC 4120 (section 5), by these documents alone, without the project's
code."""


def element(tag, *parts):
    content = b"".join(parts)
    size = len(content)
    if size < 128:
        return bytes([tag, size]) + content
    digits = size.to_bytes((size.bit_length() + 7) // 8, "big")
    return bytes([tag, 0x80 + len(digits)]) + digits + content


def integer(number):
    return element(0x02, number.to_bytes((number + (number < 0)).bit_length() // 8 + 1, "big", signed=True))


def field(number, content):
    return element(0xA0 + number, content)


def sequence(*parts):
    return element(0x30, *parts)


def string(text):
    return element(0x1B, text)


def octets(data):
    return element(0x04, data)


def flags(number):
    return element(0x03, b"\0", number.to_bytes(4, "big"))


def time(text):
    return element(0x18, text.encode())


def time_of(seconds):
    """KerberosTime of the years 0000 to 9999 (the proleptic Gregorian calendar)."""
    days, left = divmod(seconds, 86_400)
    # days from 0000-03-01 on, in eras of 400 years
    era, day = divmod(days + 719_468, 146_097)
    year = (day - day // 1_460 + day // 36_524 - day // 146_096) // 365
    day -= 365 * year + year // 4 - year // 100
    month = (5 * day + 2) // 153
    day -= (153 * month + 2) // 5
    year += 400 * era + (month >= 10)
    return time(f"{year:04}{(month + 2) % 12 + 1:02}{day + 1:02}{left // 3600:02}{left // 60 % 60:02}{left % 60:02}Z")


def fields(*parts):
    """A sequence whose fields have the numbers from 0 on: bytes, a whole number, or None for one that is left out."""
    given = [(at, integer(it) if isinstance(it, int) else it) for at, it in enumerate(parts) if it is not None]
    return sequence(*(field(at, it) for at, it in given))


def message(tag, *parts):
    return element(tag, fields(*parts))


# ---------------------------------------------------------------- what messages share


def name(name_type, *components):
    return fields(name_type, sequence(*map(string, components)))


def key(kind, value):
    """A key, a checksum, an address or an element of authorization data: they are laid out alike."""
    return fields(kind, octets(value))


def encrypted(etype, cipher, kvno=None):
    """An EncryptedData, with the key's version or without."""
    return fields(etype, kvno, octets(cipher))


# ---------------------------------------------------------------- messages


def ticket(realm, service, part):
    return message(0x61, 5, string(realm), service, part)


def optional_time(seconds):
    return None if seconds is None else time_of(seconds)


def enc_ticket_part(bits, session_key, realm, client, authtime, endtime, *, transited=None, start=None, renew=None,
                    addresses=None, data=None):
    """What is sealed in a ticket. Times are in seconds."""
    times = [optional_time(it) for it in (authtime, start, endtime, renew)]
    return message(0x63, flags(bits), session_key, string(realm), client, transited or key(1, b""), *times, addresses,
                   data)


def authenticator(realm, client, micros, seconds, *, checksum=None, subkey=None, number=None, data=None):
    return message(0x62, 5, string(realm), client, checksum, micros, time_of(seconds), subkey, number, data)


def request(options, of, part):
    return message(0x6E, 5, 14, flags(options), of, part)


def reply(part):
    return message(0x6F, 5, 15, part)


def enc_reply_part(seconds, micros, subkey=None, number=None):
    return message(0x7B, time_of(seconds), micros, subkey, number)


def error(code, seconds, micros, realm, service):
    return message(0x7E, 5, 30, None, None, time_of(seconds), micros, code, None, None, string(realm), service)
