"""Writes tests/context/LIBRARY.toml: tokens that MIT krb5's or Heimdal's library makes, with their keys.

    (cd tests && python3 -m context.store_tokens LIBRARY)     MIT or Heimdal

tests/context/tokens.c is both sides of a context of the library. The tickets are of a KDC of MIT krb5, which runs while
they are made. For each type and with and without a reply (the acceptor asserts a subkey only in a reply), each side
sends MIC tokens, and Wrap tokens that are sealed or not, of texts of many lengths. What the stored cases say is
answered follows from the texts and from the numbers in the tokens' headers.
"""
import random
import sys
import tempfile
from pathlib import Path

from support import TESTS
from support.kdc import PASSWORD, MitRealm, done, ran

CONFIG = {"MIT": ("krb5-config.mit", []), "Heimdal": ("krb5-config.heimdal", ["-DHEIMDAL"])}
TYPES = {20: "aes256-cts-hmac-sha384-192", 19: "aes128-cts-hmac-sha256-128"}
# GSS_C_REPLAY_FLAG and GSS_C_SEQUENCE_FLAG, and GSS_C_MUTUAL_FLAG with both
FLAGS = {"no reply": 12, "a reply": 14}
SIDES = ("initiator", "acceptor")
# The texts of each side: their lengths.
LENGTHS = (0, 1, 15, 16, 17, 31, 33, 100)


def realm_in(folder):
    """A KDC with a service of each type, whose keytab is the folder's, and a user's cache with tickets for both."""
    realm = MitRealm(folder / "mit", "PEER.TEST", None, " ".join(f"{it}:normal" for it in TYPES.values()))
    realm.kadmin("addprinc", "-pw", PASSWORD, "alice")
    for etype, name in TYPES.items():
        realm.kadmin("addprinc", "-randkey", f"host/of{etype}.example")
        realm.kadmin("setstr", f"host/of{etype}.example", "session_enctypes", name)
        realm.kadmin("ktadd", "-k", realm.folder / "keytab", f"host/of{etype}.example")
    realm.start("default")
    for etype, name in TYPES.items():
        # Heimdal asserts a subkey of the first type that both sides permit, which else is 18.
        realm.client(f"{etype}", "default", f"permitted_enctypes = {name}", f"default_etypes = {name}")
    try:
        realm.cache("alice", "default", [f"host/of{it}.example" for it in TYPES])
    finally:
        realm.stop()
    return realm


def built(library, folder):
    config, defined = CONFIG[library]
    flags = ran([config, "--cflags", "--libs", "gssapi"]).split()
    ran(["cc", "-O1", *defined, "-o", folder / "tokens", TESTS / "context/tokens.c", *flags])
    return folder / "tokens"


def cases(realm, program, drawn):
    """The name of each case, its lines and its answers."""
    for etype in TYPES:
        environment = realm.environment(f"{etype}", KRB5CCNAME=f"FILE:{realm.folder}/alice.ccache",
                                        KRB5_KTNAME=f"FILE:{realm.folder}/keytab", KRB5RCACHETYPE="none")
        for reply, flags in FLAGS.items():
            texts = [drawn.randbytes(size).hex() or "-" for size in LENGTHS]
            ended = done([program, f"host/of{etype}.example@{realm.name}", flags, *texts], env=environment)
            if ended.returncode:
                raise SystemExit(f"type {etype}, {reply}: {ended.stderr}")
            lines = ended.stdout.splitlines()
            for side, said in zip(SIDES, (lines[: len(lines) // 2], lines[len(lines) // 2:])):
                yield (f"the {side}'s, type {etype}, {reply}", *case_of(said[-1], texts, said[:-1]))


def case_of(key, texts, tokens):
    """A side's key and its tokens, three of each text, as calls and answers."""
    lines, answers = [key], ["kept"]
    for text, (mic, sealed, plain) in zip(texts, zip(*[iter(tokens)] * 3)):
        numbers = [int(it[16:32], 16) for it in (mic, sealed, plain)]
        lines += [f"verify {text} {mic}", f"unwrap {sealed}", f"unwrap {plain}"]
        answers += [f"{numbers[0]}", f"{numbers[1]} true {text}", f"{numbers[2]} false {text}"]
    return lines, answers


def shown(library, version, found):
    """The file's text."""
    about = f"""Per-message tokens that {library} made ({version}),
stored by tests/context/store_tokens.py: MIC tokens, and Wrap tokens with confidentiality and without it, of both sides,
under subkeys of the initiator and, after a reply, of the acceptor. tests/support/context.py draws more."""
    text = "".join(f"# {line}\n" for line in about.splitlines()) + 'program = "wire_in_c"\n'
    for name, lines, answers in found:
        text += f'\n[[case]]\nname = "{name}"\n'
        for word, them in (("lines", lines), ("answers", answers)):
            text += f"{word} = [\n" + "".join(f'    "{it}",\n' for it in them) + "]\n"
    return text


def main(library):
    with tempfile.TemporaryDirectory() as made:
        folder = Path(made)
        realm, program = realm_in(folder), built(library, folder)
        found = list(cases(realm, program, random.Random(library)))
    package = {"MIT": "libgssapi-krb5-2", "Heimdal": "libgssapi3-heimdal"}[library]
    version = f"{package} {ran(['dpkg-query', '-W', '-f', '${Version}', package])}"
    path = TESTS / f"context/{library.lower()}.toml"
    path.write_text(shown({"MIT": "MIT krb5", "Heimdal": "Heimdal"}[library], version, found))
    print(f"{path}: {sum(len(lines) - 1 for _, lines, _ in found)} tokens")


if __name__ == "__main__":
    main(*sys.argv[1:])
