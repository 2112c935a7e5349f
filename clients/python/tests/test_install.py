import os
import pathlib
import re
import subprocess
import sys
import tarfile
import unittest
import zipfile

import tsvd
from tests.served import LONGEST, Files

FOLDER = pathlib.Path(tsvd.__file__).resolve().parents[1]
COMPLETION = FOLDER.parents[1] / "man" / "tsvd.bash"


def listing():
    """Returns the names of the files below the folder, but for those that Python caches."""
    return {str(path) for path in FOLDER.rglob("*") if "__pycache__" not in path.parts}


def pip(*words):
    """Runs pip without a network."""
    return subprocess.run([sys.executable, "-m", "pip", "--disable-pip-version-check", *words, "--no-index", "--no-cache-dir"],
                          stdout=subprocess.PIPE, stderr=subprocess.STDOUT, timeout=LONGEST, check=False, cwd=str(FOLDER),
                          env=dict(os.environ, PYTHONDONTWRITEBYTECODE="1"))


@unittest.skipIf(subprocess.run([sys.executable, "-m", "pip", "--version"], stdout=subprocess.DEVNULL,
                                stderr=subprocess.DEVNULL, check=False).returncode, "pip is not installed")
class Installs(Files):
    def test_pip_installs_the_package_with_nothing_else_and_leaves_nothing_behind(self):
        before = listing()
        ran = pip("install", "--target", str(self.folder), ".")
        self.assertEqual(ran.returncode, 0, ran.stdout.decode())
        self.assertEqual(listing(), before)
        told = subprocess.run([sys.executable, "-c", "import tsvd; print(tsvd.__file__, tsvd.__version__)"], cwd=str(self.folder),
                              stdout=subprocess.PIPE, check=True, env={**os.environ, "PYTHONPATH": str(self.folder)})
        self.assertEqual(told.stdout.decode().split(), [str(self.folder / "tsvd" / "__init__.py"), tsvd.__version__])
        installed = {path.name for path in (self.folder / "tsvd").iterdir()} - {"__pycache__"}
        self.assertEqual(installed, {path.name for path in (FOLDER / "tsvd").iterdir()} - {"__pycache__"})
        self.assertIn("py.typed", installed)
        metadata = next(self.folder.glob("tsvd-*.dist-info")) / "METADATA"
        self.assertIn(f"Version: {tsvd.__version__}\n", metadata.read_text(encoding="utf-8"))

    def test_a_wheel_is_typed(self):
        ran = pip("wheel", "--no-deps", "--wheel-dir", str(self.folder), ".")
        self.assertEqual(ran.returncode, 0, ran.stdout.decode())
        self.assertIn("tsvd/py.typed", zipfile.ZipFile(next(self.folder.glob("*.whl"))).namelist())


class Archives(Files):
    def test_archives_have_all_that_the_next_build_needs(self):
        sys.path.insert(0, str(FOLDER))
        self.addCleanup(sys.path.remove, str(FOLDER))
        import wheel_builder
        made = wheel_builder.build_sdist(str(self.folder))
        with tarfile.open(str(self.folder / made)) as archive:
            names = {name.split("/", 1)[1] for name in archive.getnames()}
        self.assertLessEqual({"pyproject.toml", "wheel_builder.py", "README.md", "PKG-INFO", "tsvd/__init__.py", "tsvd/timeline.html"}, names)
        editable = zipfile.ZipFile(str(self.folder / wheel_builder.build_editable(str(self.folder))))
        self.assertEqual(editable.read("tsvd.pth").decode(), f"{FOLDER}\n")


class Completions(Files):
    def completed(self, *words):
        """Returns what bash offers for the last word of a command line, split at `=` as bash splits it."""
        return self.offered([part for word in words for part in re.findall(r"=|[^=]+|^$", word)])

    def offered(self, parts):
        """Returns what bash offers for the last part of a command line."""
        script = '. "$0"; COMP_WORDS=("$@"); COMP_CWORD=$(($# - 1)); _tsvd; printf "%s\\n" "${COMPREPLY[@]}"'
        ran = subprocess.run(["bash", "-c", script, str(COMPLETION), "tsvd", *parts], stdout=subprocess.PIPE, cwd=str(self.folder),
                             timeout=LONGEST, check=True)
        return ran.stdout.decode().split("\n")[:-1]

    def test_files_are_offered_behind_an_equals_sign(self):
        for name in ("staff.csv", "staff.schema", "other"):
            self.file(name, "")
        for words, wanted in [
                (("--sch",), ["--schema"]), (("--schema", "st"), ["staff.csv", "staff.schema"]), (("--schema=st",), ["staff.csv", "staff.schema"]),
                (("--schema=",), ["other", "staff.csv", "staff.schema"]), (("--load", "emp=staff.c"), ["staff.csv"]),
                (("--load=emp=ot",), ["other"]), (("--load", "emp="), ["other", "staff.csv", "staff.schema"]),
                (("--script=oth",), ["other"]), (("--load", "em"), [""]), (("--export", ""), [""]), (("--sessions", "5"), [""])]:
            self.assertEqual(sorted(self.completed(*words)), wanted, words)
        for words, wanted in [(("--load", "emp=ot"), ["emp=other"]), (("--schema=oth",), ["--schema=other"]),
                              (("--load=emp=ot",), ["--load=emp=other"]), (("--load=em",), [""]), (("--export=em",), [""])]:
            self.assertEqual(self.offered(words), wanted, words)
