"""Installation, the tarball and the Debian package: each is run from where it was put."""
import glob
import os
import re
import shutil
import subprocess
import tempfile

from tooling import ROOT, ToolTest, needs

TOOLS = ("ccheck-cc", "ccheck-show", "ccheck-html", "ccheck-baseline", "ccheck-draws", "show-me")
DIVIDE = "int main(void) { int z = 0; return 1 / z; }\n"
FOUND = "a.c:1:38: diverr: division is undefined\n1 diagnostics in a.c\n"


class Packages(ToolTest):
    """What `make install` and `make dist` make."""

    packed = None

    def setUp(self):
        super().setUp()
        needs("make", "readelf", "git")
        self.file("a.c", DIVIDE)
        for name in ("CCHECK", "MAKEFLAGS", "MAKELEVEL", "MFLAGS"):
            self.environment.pop(name, None)

    def make(self, *words):
        """Runs make at the top of the tree."""
        status, text, why = self.call("make", "-s", *words, f"PROGRAM={self.program}", folder=ROOT)
        self.assertEqual(status, 0, text + why)

    def dist(self, is_new=False):
        """Packs, or takes what another test has packed; returns the folder with the packages."""
        if is_new or not Packages.packed:
            room = tempfile.TemporaryDirectory(prefix="ccheck-dist-")
            self.addClassCleanup(room.cleanup)
            status, text, why = self.call(f"{ROOT}/packaging/make-dist", self.program, room.name)
            self.assertEqual(status, 0, text + why)
            Packages.packed = room.name
        return Packages.packed

    def runs_from(self, top):
        """Runs the program and each tool of an installation."""
        path = f"{top}/bin:{os.environ['PATH']}"
        self.assertEqual(self.call(f"{top}/bin/ccheck", "check", "a.c")[:2], (1, FOUND))
        for name in TOOLS:
            status, text, why = self.call(f"{top}/bin/{name}", "--help", PATH=path)
            self.assertEqual((status, why), (0, ""), name)
            self.assertIn(name, text)
        self.assertIn("## diverr", self.call(f"{top}/bin/ccheck-show", "explain", "diverr", PATH=path)[1])
        self.assertEqual(self.call(f"{top}/bin/show-me", "a.c", "1", PATH="/usr/bin:/bin")[0], 0)
        self.assertEqual(self.call(f"{top}/bin/ccheck-cc", "a.c", PATH=path)[0], 1)
        self.file("b.c", "#include <stdbool.h>\nint main(void) { return true; }\n")
        self.assertEqual(self.call(f"{top}/bin/ccheck-cc", "b.c", PATH=path)[0], 0)
        for name in ("ccheck", *TOOLS):
            self.assertTrue(glob.glob(f"{top}/share/man/man1/{name}.1*"), name)
            self.assertTrue(os.path.exists(f"{top}/share/bash-completion/completions/{name}"), name)
        with open(f"{top}/share/doc/ccheck/IDENTITY", encoding="utf-8") as file:
            self.assertRegex(file.read(), r"ccheck: [\d.]+\ncommit: .+\nkit: .+\nprogram: sha256 [0-9a-f]{64}\n")

    def test_install(self):
        self.make("install", f"PREFIX={self.folder}/local")
        self.runs_from(f"{self.folder}/local")
        with open(f"{self.folder}/local/share/doc/ccheck/README.md", encoding="utf-8") as file:
            links = re.findall(r"\]\(((?:docs|examples)/[^)#]+)", file.read())
        for link in links:
            self.assertTrue(os.path.exists(f"{self.folder}/local/share/doc/ccheck/{link}"), link)

    def test_tarball(self):
        needs("tar")
        dist = self.dist()
        path, = glob.glob(f"{dist}/*.tar.gz")
        self.assertEqual(self.call("tar", "xf", path)[0], 0)
        top, = glob.glob(f"{self.folder}/ccheck-*")
        self.runs_from(top)
        status, text, _ = self.call("sha256sum", "-c", "SHA256SUMS", folder=dist)
        self.assertEqual(status, 0, text)

    def test_the_package_in_an_empty_root(self):
        needs("dpkg", "dpkg-deb", "chroot", "ldd")
        if os.geteuid() != 0:
            self.skipTest("chroot needs root")
        path, = glob.glob(f"{self.dist()}/*.deb")
        root = f"{self.folder}/root"
        os.makedirs(f"{root}/var/lib/dpkg/info")
        os.makedirs(f"{root}/var/lib/dpkg/updates")
        self.file("root/var/lib/dpkg/status", "")
        for library in re.findall(r"(/\S+) \(0x", self.call("ldd", self.program)[1]):
            os.makedirs(root + os.path.dirname(library), exist_ok=True)
            shutil.copy(library, root + library)
        words = ["dpkg", f"--root={root}", "--force-depends", "--force-not-root", "-i", path]
        status, text, why = self.call(*words, PATH=os.environ["PATH"] + ":/usr/sbin:/sbin")
        self.assertEqual(status, 0, text + why)
        self.file("root/a.c", DIVIDE)
        self.assertEqual(self.call("/usr/sbin/chroot", root, "/usr/bin/ccheck", "check", "a.c")[:2], (1, FOUND))
        listed = self.call("dpkg", f"--root={root}", "-L", "ccheck")[1]
        self.assertIn("/usr/share/doc/ccheck/IDENTITY", listed)
        self.assertIn("/usr/share/man/man1/ccheck-show.1.gz", listed)

    def test_the_same_commit_gives_the_same_packages(self):
        needs("dpkg-deb")
        sums = []
        for is_new in (False, True):
            with open(f"{self.dist(is_new)}/SHA256SUMS", encoding="ascii") as file:
                sums.append(file.read())
        self.assertEqual(sums[0], sums[1])

    def test_make_says_at_once_what_it_will_do(self):
        done = subprocess.run(["make", "-n", "all", f"PROGRAM={self.folder}/none"], cwd=ROOT, stdout=subprocess.PIPE,
                              env=self.environment, check=False)
        self.assertIn(b"one to two hours", done.stdout)
        text = self.call("make", "-s", "announce", f"PROGRAM={self.folder}/none", folder=ROOT)[1]
        self.assertIn("goes on where it was", text)
        self.assertIn("nothing to build", self.call("make", "-s", "announce", f"PROGRAM={self.program}", folder=ROOT)[1])
