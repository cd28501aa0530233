"""Programs over the installed library, which lies in a folder: one in C, and those in Rust and Go that docs/FROM_C.md shows; processors with
and without the extensions that the faster builds need, which qemu plays; and how much faster these are."""
import re
import shutil
from pathlib import Path

import pytest
from support import program_builds
from support.packing import ANSWERS, BUILDS, KEYTAB, LIBDIR, REQUEST, ROOT, run, well, wrong

pytestmark = pytest.mark.packages
# A processor of x86-64 without extensions, one of x86-64-v2 and one of x86-64-v3, each with the build that the loader takes there.
TAKEN = {"qemu64": "x86-64", "Nehalem": "x86-64-v2", "Haswell": "x86-64-v3"}
# Instructions that x86-64-v2 adds, and those that x86-64-v3 adds.
ADDED = {
    "x86-64-v2": re.compile(r"\t(pshufb|palignr|pinsr[bdq]|pextr[bdq]|pblendw|pmulld|popcnt|pcmpeqq|pcmpgtq|ptest|crc32\w|roundsd)\b"),
    "x86-64-v3": re.compile(r"\t(vp\w+|vmov\w+|vxorps|andn|bextr|mulx|rorx|s[ah][lr]x|movbe|lzcnt)\b"),
}
# What each kind of processor adds, as Linux names it.
FLAGS = {
    "x86-64-v2": {"cx16", "lahf_lm", "popcnt", "sse4_1", "sse4_2", "ssse3"},
    "x86-64-v3": {"abm", "avx", "avx2", "bmi1", "bmi2", "f16c", "fma", "movbe", "xsave"},
}
HOLES = ROOT / "examples/mit-holes.keytab"


@pytest.fixture(scope="session")
def programs(staged, once):
    """The program in C, over the shared library and over the static one."""

    def make(at):
        at.mkdir()
        for name in ("shared", "static"):
            built = staged.compiled(ROOT / "tests/c/installed.c", at / name, static=name == "static")
            assert built.returncode == 0, wrong(built)

    at = once("programs", make)
    return {name: at / name for name in ("shared", "static")}


@pytest.mark.parametrize("kind", ["shared", "static"])
def test_program_in_c(staged, programs, kind):
    assert staged.answers(programs[kind]) == ANSWERS


# ---------------------------------------------------------------- Rust and Go


def block(language):
    (found,) = re.findall(rf"^```{language}\n(.*?)^```$", (ROOT / "docs/FROM_C.md").read_text(), re.S | re.M)
    return found


def counted(staged, program):
    """What a program of the document says of files."""
    files = (HOLES, KEYTAB, ROOT / "README.md")
    return [staged.run(program, it).stdout for it in files]


COUNTS = ["4 entries\n", "1 entries\n", "fault 500 at 0\n"]


@pytest.mark.parametrize("compiler", sorted({it for it in ("/usr/bin/rustc", shutil.which("rustc")) if it}))
def test_program_in_rust(staged, tmp_path, compiler):
    (tmp_path / "count.rs").write_text(block("rust"))
    built = staged.run(compiler, "-D", "warnings", tmp_path / "count.rs", *staged.flags("--libs"), "-o", tmp_path / "count")
    assert built.returncode == 0, wrong(built)
    assert counted(staged, tmp_path / "count") == COUNTS


def test_program_in_go(staged, tmp_path):
    (tmp_path / "count.go").write_text(block("go"))
    where = staged.environment(GOCACHE=str(tmp_path / "cache"), HOME=str(tmp_path))
    well("go", "build", "-o", tmp_path / "count", tmp_path / "count.go", env=where)
    assert counted(staged, tmp_path / "count") == COUNTS


# ---------------------------------------------------------------- processors


@pytest.mark.parametrize("cpu", TAKEN)
@pytest.mark.parametrize("kind", ["shared", "static"])
def test_program_in_c_on_a_processor(staged, programs, cpu, kind):
    assert staged.answers("qemu-x86_64", "-cpu", cpu, programs[kind]) == ANSWERS


@pytest.mark.parametrize("cpu", TAKEN)
def test_the_loader_takes_the_build_for_the_processor(staged, programs, cpu):
    listed = staged.run("qemu-x86_64", "-cpu", cpu, "-E", "LD_TRACE_LOADED_OBJECTS=1", programs["shared"])
    found = re.findall(r"libfevstunik\.so\.0 => (\S+)", listed.stdout)
    assert found == [f"{staged.root}/{BUILDS[TAKEN[cpu]]}/libfevstunik.so.0"], listed.stderr


@pytest.mark.parametrize("cpu", TAKEN)
def test_each_installed_program_runs_on_a_processor(unpacked, cpu):
    programs = [it for folder in ("usr/bin", "usr/sbin", "usr/libexec") for it in (unpacked.root / folder).glob("*")]
    assert [it.name for it in programs] == ["krbtool"]
    played = ["qemu-x86_64", "-cpu", cpu, programs[0]]
    assert well(*played, "check-keytab", HOLES) == "ok 4\n"
    line = f"1700000101 0 {REQUEST}\n"
    answer = well(*played, "accept", KEYTAB, "--only", "host/web@EX", input=line)
    assert answer.startswith("accepted alice@EX ")


def code_of(path):
    """The machine code, except what asks the processor for its vector registers before it overwrites them."""
    code = well("objdump", "-d", "--no-show-raw-insn", path)
    (overwrites,) = re.findall(r"<wipe_below>:\n.*?\n\n", code, re.S)
    return code.replace(overwrites, "")


@pytest.mark.parametrize("build", BUILDS)
def test_instructions_of_a_build(staged, build):
    """None that only a newer processor has, and some of those that the build's own kind adds."""
    code = code_of(staged.root / BUILDS[build] / "libfevstunik.so.0")
    assert code.count("\n") > 10_000
    kinds = list(BUILDS)
    found = {cpu: set(added.findall(code)) for cpu, added in ADDED.items()}
    assert {cpu: words for cpu, words in found.items() if kinds.index(cpu) > kinds.index(build) and words} == {}
    assert build not in found or found[build]


def test_instructions_of_the_static_library(staged):
    """None that not every x86-64 has."""
    code = code_of(staged.root / LIBDIR / "libfevstunik.a")
    assert code.count("\n") > 10_000
    assert {it for added in ADDED.values() for it in added.findall(code)} == set()


def functions_of_krbtool(staged):
    """The functions: the build that each is of, or None, the name and the machine code."""
    code = code_of(staged.root / "usr/bin/krbtool") + "\n\n"
    found = re.findall(r"^[0-9a-f]+ <(.*?)>:\n(.*?)\n\n", code, re.S | re.M)
    return [(program_builds.build_of(name), name, function) for name, function in found]


def test_instructions_of_krbtool(staged):
    """Each build of the proved code has none that only a newer processor has, and what picks a build has none that not every x86-64 has."""
    builds = {it: "" for it in (None, *program_builds.BUILDS)}
    for build, _, function in functions_of_krbtool(staged):
        builds[build] += function
    found = {it: [cpu for cpu, added in ADDED.items() if added.search(code)] for it, code in builds.items()}
    assert found == {None: [], "x86-64": [], "x86-64-v2": ["x86-64-v2"]}
    assert min(code.count("\n") for build, code in builds.items() if build) > 10_000


# A small read at a computed place, as in a table.
LOOK_UP = re.compile(r"\t(?:movz[bw]\w|mov[bwl]?) +[^(\s]*\([^)]*,")


def test_tables_of_krbtool(staged):
    """The build for x86-64-v2 encrypts and decrypts blocks without looking up tables, which the other build does."""
    found = {it: set() for it in program_builds.BUILDS}
    for build, name, function in functions_of_krbtool(staged):
        if build and re.search(r"krb_aes::\S*::(en|de)crypt_\w*blocks?$", name):
            found[build].add(LOOK_UP.search(function) is not None)
    assert found == {"x86-64": {True}, "x86-64-v2": {False}}


# ---------------------------------------------------------------- speed

# The builds take turns, until each of those for newer processors has been fast enough, or for a hundred turns: what else
# the machine does slows all of them.
SEALING = """import sys, time, fevstunik
share, *paths = sys.argv[1:]
key, plain, sealed, least = fevstunik.Key(20, bytes(range(32))), bytes(range(256)) * 4096, {}, dict.fromkeys(paths, 1e9)
for turn in range(100):
    for path in paths:
        fevstunik.load(path)
        start = time.process_time()
        sealed[path] = key.seal(1024, plain)
        least[path] = min(least[path], time.process_time() - start)
    if turn >= 5 and all(least[it] < float(share) * least[paths[0]] for it in paths[1:]):
        break
for path in paths:
    fevstunik.load(path)
    print(all(key.open(1024, it) == plain for it in sealed.values()))
print(*least.values())
"""
# What part of the time of the build for every processor each of the others may take at most.
SHARE = 0.75


def build_for_this():
    """The build for this processor: that of the last kind, as long as it has what each kind adds."""
    flags = set(Path("/proc/cpuinfo").read_text().partition("\nflags")[2].partition("\n")[0].split())
    found = "x86-64"
    for build, added in FLAGS.items():
        if not added <= flags:
            break
        found = build
    return found


def test_builds_for_newer_processors_are_faster(unpacked):
    """Each build opens what the others seal, and those for newer processors take less than three quarters of the time to seal."""
    names = list(BUILDS)
    builds = names[: names.index(build_for_this()) + 1]
    assert len(builds) > 1, "this processor runs none of the faster builds"
    paths = [unpacked.root / BUILDS[it] / "libfevstunik.so.0" for it in builds]
    ran = unpacked.run("/usr/bin/python3", "-c", SEALING, SHARE, *paths)
    assert ran.returncode == 0, wrong(ran)
    *opened, times = ran.stdout.splitlines()
    assert opened == ["True"] * len(builds)
    plain, *newer = map(float, times.split())
    assert all(it < SHARE * plain for it in newer), times


def test_a_missing_extension_is_noticed_by_qemu(tmp_path):
    """Otherwise the tests above would show nothing."""
    (tmp_path / "popcnt.c").write_text('int main(int n, char **w) { (void)w; return __builtin_popcountll(n) != 1; }\n')
    well("gcc", "-O0", "-mpopcnt", tmp_path / "popcnt.c", "-o", tmp_path / "popcnt")
    ended = {cpu: run("qemu-x86_64", "-cpu", cpu, tmp_path / "popcnt").returncode for cpu in ("qemu64", "Nehalem")}
    assert ended["Nehalem"] == 0 and ended["qemu64"] != 0, ended
