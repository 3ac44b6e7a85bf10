"""The wheel: what is in it, that pip installs it with no network, and that it runs with no kit on x86-64."""

import base64
import csv
import hashlib
import os
import re
import stat
import subprocess
import sys
import unittest
import zipfile

from common import OUT, PYTHON, _library, folder_for, python, zr400



def version():
    """Of a wheel from hosts/out: a library without proofs does not pass for the proved one."""
    with open(os.path.join(OUT, "made-from.txt"), encoding="ascii") as origin:
        return zr400.__version__ + ("+plain" if "no proof" in origin.read() else "")


VERSION = version() if os.path.exists(os.path.join(OUT, "made-from.txt")) else ""
NAME = f"zr400-{VERSION}-py3-none-linux_x86_64.linux_aarch64.whl"
TOLD = f"zr400-{VERSION}.dist-info"

CODES_AND_READS = """
import hashlib, sys
import zr400
information = bytes(k * 7 % 256 for k in range(zr400.information_length(1)))
parity = bytes(k * 5 % 256 for k in range(zr400.parity_length(1)))
try:
    capture = zr400.code(1, 7, information, parity)
except OSError as error:
    sys.exit(f"OSError: {error}")
assert zr400.read(1, 7, capture) == (information, parity, 0)
print(zr400.__version__, hashlib.sha256(capture).hexdigest())
"""
ON_ARM = "import platform; platform.machine = lambda: 'aarch64'\n"
NEEDS = r"OSError: zr400 is made for x86-64, and on this machine \(\w+\) it needs the Rattle kit.*the kit's command rt is not on the PATH"
NEEDS_EMULATOR = r"OSError: zr400 is made for x86-64, and on this machine \(\w+\) it needs an emulator of that: qemu-x86_64 is not on the PATH"


def plain_environment(path):
    """The environment with that PATH, and with nothing that names a library or steers Python and pip."""
    kept = {name: value for name, value in os.environ.items() if not name.startswith(("ZR400_", "PYTHON", "PIP_"))}
    return {**kept, "PATH": path}


def run(words):
    return subprocess.run(words, stdout=subprocess.PIPE, stderr=subprocess.STDOUT, universal_newlines=True)


@unittest.skipUnless(os.path.exists(os.path.join(OUT, "libzr400.so")), "there is no library in hosts/out")
class Wheel(unittest.TestCase):
    def setUp(self):
        self.folder = folder_for(self)
        self.elsewhere = folder_for(self)

    def made(self):
        made = python(os.path.join(PYTHON, "make_wheel.py"), self.folder, cwd=self.elsewhere)
        self.assertEqual((made.returncode, made.stdout), (0, os.path.join(self.folder, NAME) + "\n"))
        return made.stdout.strip()

    def test_the_same_bytes_each_time_and_no_other_version(self):
        other, foreign = (os.path.join(self.folder, name) for name in ("zr400-0.0.1-py3-none-any.whl", "zr400tools-0.0.1.whl"))
        for path in (other, foreign):
            open(path, "wb").close()
        contents = []
        for mask in (0o022, 0o077):
            before = os.umask(mask)
            try:
                with open(self.made(), "rb") as wheel:
                    contents.append(wheel.read())
            finally:
                os.umask(before)
        self.assertEqual(contents[0], contents[1])
        self.assertEqual(sorted(os.listdir(self.folder)), sorted([NAME, os.path.basename(foreign)]))

    def test_what_is_in_it(self):
        with zipfile.ZipFile(self.made()) as wheel:
            package = ["VERSION", "__init__.py", "_files.py", "_library.py", "libzr400.so", "py.typed", "zr400-worker"]
            told = [f"{TOLD}/{name}" for name in ("METADATA", "RECORD", "WHEEL")]
            self.assertEqual(sorted(wheel.namelist()), sorted([f"zr400/{name}" for name in package] + told))
            self.assertTrue(wheel.getinfo("zr400/zr400-worker").external_attr >> 16 & stat.S_IXUSR)
            for name, said, length in csv.reader(wheel.read(f"{TOLD}/RECORD").decode().splitlines()):
                content = wheel.read(name)
                expected = base64.urlsafe_b64encode(hashlib.sha256(content).digest()).decode().rstrip("=")
                if name != f"{TOLD}/RECORD":
                    self.assertEqual((said, length), (f"sha256={expected}", str(len(content))))
            metadata = wheel.read(f"{TOLD}/METADATA").decode()
            for line in ("Name: zr400", f"Version: {VERSION}", "Requires-Python: >=3.8"):
                self.assertIn(f"\n{line}\n", metadata)
            with open(os.path.join(OUT, "made-from.txt"), encoding="ascii") as origin:
                self.assertIn(f"was made from {origin.read().strip()}.", metadata)
            for platform in ("linux_x86_64", "linux_aarch64"):
                self.assertIn(f"\nTag: py3-none-{platform}\n", wheel.read(f"{TOLD}/WHEEL").decode())

    def runs(self, interpreter, found=""):
        """It codes and reads, or says what it needs and does so when it has it, in another folder and with no kit at first."""

        def ran_with(path):
            program = found + CODES_AND_READS
            return python("-I", "-c", program, interpreter=interpreter, cwd=self.elsewhere, environment=plain_environment(path))

        ran = ran_with(self.elsewhere)
        if not _library.is_native():
            self.assertRegex(ran.stdout, NEEDS)
            ran = ran_with(os.environ["PATH"])
        self.assertEqual(ran.returncode, 0, ran.stdout)
        information = bytes(k * 7 % 256 for k in range(zr400.information_length(1)))
        parity = bytes(k * 5 % 256 for k in range(zr400.parity_length(1)))
        capture = hashlib.sha256(zr400.code(1, 7, information, parity)).hexdigest()
        self.assertEqual(ran.stdout, f"{VERSION} {capture}\n")

    def unpacked(self):
        with zipfile.ZipFile(self.made()) as wheel:
            wheel.extractall(self.folder)
        os.chmod(os.path.join(self.folder, "zr400", "zr400-worker"), 0o755)
        return f"import sys; sys.path.insert(0, {self.folder!r})\n"

    def test_unpacked(self):
        self.runs(sys.executable, self.unpacked())

    def test_on_arm_it_says_what_it_needs(self):
        program = self.unpacked() + ON_ARM + CODES_AND_READS
        ran = python("-I", "-c", program, cwd=self.elsewhere, environment=plain_environment(self.elsewhere))
        self.assertEqual(ran.returncode, 1)
        self.assertRegex(ran.stdout, NEEDS)

    @unittest.skipUnless(_library.is_native(), "the stand-in for the emulator runs the worker as it is")
    def test_on_arm_with_a_kit_and_an_emulator(self):
        program = self.unpacked() + ON_ARM + CODES_AND_READS
        self.on_the_path("rt", f"echo {self.elsewhere}/kit/guide.txt")
        ran = python("-I", "-c", program, environment=plain_environment(self.elsewhere))
        self.assertEqual(ran.returncode, 1)
        self.assertRegex(ran.stdout, NEEDS_EMULATOR)
        library = f"{self.elsewhere}/kit/toolchain/lib"
        self.on_the_path("qemu-x86_64", f'[ "$1 $2 $3" = "{library}/ld-linux-x86-64.so.2 --library-path {library}" ] && exec "$4"')
        ran = python("-I", "-c", program, environment=plain_environment(self.elsewhere))
        self.assertEqual(ran.returncode, 0, ran.stdout)

    def on_the_path(self, name, line):
        path = os.path.join(self.elsewhere, name)
        with open(path, "w", encoding="ascii") as script:
            script.write(f"#!/bin/sh\n{line}\n")
        os.chmod(path, 0o755)

    def test_installed_by_pip(self):
        wheel, target = self.made(), os.path.join(self.folder, "installed")
        install = ["-m", "pip", "--isolated", "--disable-pip-version-check", "install", "--no-index", "--no-deps"]
        if run([sys.executable, "-I", "-m", "venv", target]).returncode == 0:
            interpreter, found = os.path.join(target, "bin", "python"), ""
        elif run([sys.executable, "-m", "pip", "--version"]).returncode == 0:
            interpreter, found = sys.executable, f"import sys; sys.path.insert(0, {target!r})\n"
            install += ["--target", target]
        else:
            self.skipTest("pip is not installed; the wheel was tried unpacked only")
        installed = run([interpreter, *install, wheel])
        self.assertEqual(installed.returncode, 0, installed.stdout)
        self.runs(interpreter, found)

    def test_pip_makes_the_same_wheel(self):
        version = re.match(r"pip (\d+)\.(\d+)", run([sys.executable, "-m", "pip", "--version"]).stdout)
        if version is None or (int(version[1]), int(version[2])) < (21, 3):
            self.skipTest("there is no pip that builds in the folder itself (21.3 or newer)")
        pip = ["-m", "pip", "--isolated", "--disable-pip-version-check", "wheel", "--no-index", "--no-deps", "-w", self.elsewhere]
        built = run([sys.executable, *pip, PYTHON])
        self.assertEqual(built.returncode, 0, built.stdout)
        with open(self.made(), "rb") as one, open(os.path.join(self.elsewhere, NAME), "rb") as other:
            self.assertEqual(one.read(), other.read())


if __name__ == "__main__":
    unittest.main()
