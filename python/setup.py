"""Builds a module for each version, with the library for C inside."""
import os
import shlex
import shutil
import sys
import sysconfig
import tempfile
from pathlib import Path

from setuptools import Extension, __version__, setup
from setuptools.command.build_ext import build_ext
from setuptools.command.sdist import sdist

if int(__version__.split(".")[0]) < 61:
    sys.exit(f"setuptools 61 or newer is needed, and this is {__version__}")

HERE = Path(__file__).resolve().parent
# What is used from above this folder is in it in a source distribution.
ABOVE = HERE if (HERE / "c").is_dir() else HERE.parent
USED = ("c/Makefile", "c/assembly", "c/assembly.sh", "c/komihash_rattle.c", "c/komihash_rattle.h",
        "c/komihash_rattle_inline.h", "rust/tests/values.tsv", "rust/tests/vectors.tsv",
        "docs/CLAIMS.md", "docs/DEFINITIONS.md")

# From 3.11 on, CPython's stable interface can read bytes, so one build serves all later ones.
STABLE = sys.version_info >= (3, 11) and not sysconfig.get_config_var("Py_GIL_DISABLED")

# Whether to link the library that is installed, as distributors want it.
SYSTEM = {"": False, "0": False, "1": True}.get(os.environ.get("KOMIHASH_RATTLE_SYSTEM", ""))
FROM = os.environ.get("KOMIHASH_RATTLE_FROM", "")
if SYSTEM is None or FROM not in ("", "c"):
    sys.exit("KOMIHASH_RATTLE_SYSTEM may be 0, 1 or empty, and KOMIHASH_RATTLE_FROM c or empty")
if not SYSTEM and not (ABOVE / USED[0]).exists():
    sys.exit(f"{ABOVE / 'c'} is missing: take the whole repository or a source distribution")

# What the makefile would take from the environment, where it may be for something else.
SETTINGS = (f"FROM={FROM}", "BUILD_STATIC=", "BUILD_SHARED=", "CROSS=", "LEVEL=", "OPT=")


class Build(build_ext):
    """Makes the library first, of its assembly, or where there is none, of one header in C."""

    def build_extensions(self):
        if SYSTEM:
            return super().build_extensions()
        # The makefile takes no path with a space, so it gets the folder's name alone.
        with tempfile.TemporaryDirectory(dir=ABOVE / "c") as folder:
            out, library = Path(folder).name, "/libkomihash_rattle.a"
            compiler = shlex.join(self.compiler.compiler)
            self.spawn(["make", "-C", f"{ABOVE}/c", f"CC={compiler}", f"OUT={out}", *SETTINGS,
                        out + library])
            for extension in self.extensions:
                extension.extra_objects = [folder + library]
            super().build_extensions()


class Distribution(sdist):
    """Adds the tests, the changes, and what is above this folder."""

    def make_release_tree(self, base_dir, files):
        super().make_release_tree(base_dir, [*files, "CHANGES.md", "tests.py"])
        for name in USED:
            to = Path(base_dir, name)
            to.parent.mkdir(parents=True, exist_ok=True)
            (shutil.copytree if (ABOVE / name).is_dir() else shutil.copy2)(ABOVE / name, to)


def module(version):
    macros = [("VERSION", version)] + STABLE * [("Py_LIMITED_API", "0x030b0000")]
    hidden = ["-Wl,--exclude-libs,ALL"] if sys.platform.startswith("linux") else []
    return Extension(f"komihash_rattle.v{version}", ["src/komihash_rattle/version.c"],
                     include_dirs=[] if SYSTEM else [str(ABOVE / "c")], define_macros=macros,
                     libraries=SYSTEM * ["komihash_rattle"], extra_link_args=hidden,
                     py_limited_api=STABLE)


setup(ext_modules=[module("4"), module("5")], cmdclass={"build_ext": Build, "sdist": Distribution},
      # Modules that were built before may have an older library.
      options={"build": {"force": True},
               "bdist_wheel": {"py_limited_api": "cp311"} if STABLE else {}}, license="MIT")
