"""Puts the shared library into the package that is built. All else stands in pyproject.toml.

setuptools makes wheels itself from version 70.1 on. Before that it needs the package wheel, and where that is missing
and cannot be fetched, the command below takes its place.
"""
import base64
import hashlib
import os
import shutil
import sysconfig
import zipfile

from setuptools import Command, Distribution, setup
from setuptools.command.build_py import build_py
from setuptools.errors import ModuleError

LIBRARY = os.path.join("target", "lib", "libpigrozd.so")


class BuildWithLibrary(build_py):
    """Builds the package with the library in it."""

    def run(self):
        """Builds. A package that is only linked to the repository finds the library there."""
        super().run()
        if getattr(self, "editable_mode", False):
            return
        if not os.path.exists(LIBRARY):
            raise SystemExit("%s is missing: make lib builds it" % LIBRARY)
        shutil.copy(LIBRARY, os.path.join(self.build_lib, "pigrozd"))


class PlatformDistribution(Distribution):
    """A distribution for one platform: the library is for x86-64 Linux."""

    def has_ext_modules(self):
        """Whether it has compiled parts."""
        return True


class PlainWheel(Command):
    """bdist_wheel where the package wheel is missing: a zip of the package, its metadata and a list of digests."""

    description = "make a wheel"
    user_options = [("dist-dir=", "d", "the folder for the wheel")]

    def initialize_options(self):
        """Sets the options to nothing."""
        self.dist_dir = None

    def finalize_options(self):
        """Sets what was not given."""
        self.dist_dir = self.dist_dir or "dist"
        self.tag = "py3-none-" + sysconfig.get_platform().replace("-", "_").replace(".", "_")

    def egg2dist(self, egg_info, dist_info):
        """Makes a wheel's metadata of what setuptools wrote."""
        os.makedirs(dist_info, exist_ok=True)
        shutil.copy(os.path.join(egg_info, "PKG-INFO"), os.path.join(dist_info, "METADATA"))
        shutil.copy(os.path.join(egg_info, "entry_points.txt"), dist_info)
        shutil.rmtree(egg_info)
        with open(os.path.join(dist_info, "WHEEL"), "w", encoding="utf-8") as stream:
            stream.write("Wheel-Version: 1.0\nGenerator: setup.py\nRoot-Is-Purelib: false\nTag: %s\n" % self.tag)

    def run(self):
        """Builds the package and zips it."""
        self.run_command("build")
        self.run_command("egg_info")
        folder, named = self.get_finalized_command("build").build_lib, "pigrozd-" + self.distribution.get_version()
        dist_info = named + ".dist-info"
        self.egg2dist(self.get_finalized_command("egg_info").egg_info, os.path.join(folder, dist_info))
        record = []
        os.makedirs(self.dist_dir, exist_ok=True)
        with zipfile.ZipFile(os.path.join(self.dist_dir, "%s-%s.whl" % (named, self.tag)), "w") as wheel:
            for part in ("pigrozd", dist_info):
                for name in sorted(os.listdir(os.path.join(folder, part))):
                    path = os.path.join(folder, part, name)
                    if os.path.isfile(path):
                        wheel.write(path, "%s/%s" % (part, name))
                        record.append("%s/%s,%s" % (part, name, digest_and_size(path)))
            wheel.writestr(dist_info + "/RECORD", "\n".join([*record, dist_info + "/RECORD,,"]) + "\n")


def digest_and_size(path):
    """A file's digest and size, as a wheel's list has them."""
    with open(path, "rb") as stream:
        data = stream.read()
    digest = base64.urlsafe_b64encode(hashlib.sha256(data).digest()).rstrip(b"=").decode("ascii")
    return "sha256=%s,%d" % (digest, len(data))


def commands():
    """The commands that are other than setuptools' own."""
    try:
        Distribution().get_command_class("bdist_wheel")
    except ModuleError:
        return {"build_py": BuildWithLibrary, "bdist_wheel": PlainWheel}
    return {"build_py": BuildWithLibrary}


setup(cmdclass=commands(), distclass=PlatformDistribution)
