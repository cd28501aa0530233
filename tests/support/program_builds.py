"""The builds of the proved code in krbtool, and how tests have it take one of them."""
import re

import pytest

from support.builds import supported

# By the kind of processor: the variables of a run that takes this build. With the first the C library takes the
# processor for one that lacks an extension.
BUILDS = {"x86-64": {"GLIBC_TUNABLES": "glibc.cpu.hwcaps=-SSSE3"}, "x86-64-v2": {}}


def prefix(build):
    """How the names of the build's functions begin."""
    return build.replace("-", "_") + "_"


def build_of(name):
    """The build that a function of krbtool is of, or None: the longest prefix counts."""
    return next((it for it in reversed(BUILDS) if name.startswith(prefix(it))), None)


def environment(build):
    """The variables of a run that takes this build. Skips the test if this processor can't run it."""
    if build not in supported():
        pytest.skip(f"this processor isn't an {build}")
    return BUILDS[build]


def ran_builds(log):
    """The builds whose functions ran, by a log of qemu's (-d in_asm)."""
    return {build_of(it) for it in re.findall(r"^IN: (\S+)", log, re.M)} - {None}
