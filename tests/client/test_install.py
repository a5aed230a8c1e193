"""What client/install puts in place: it works without this checkout, and has each command and option."""
import os, shutil, subprocess, tempfile, unittest

import stores
from pbclient import nightly, pages, words
from pbclient.talk import program

INSTALL = os.path.join(stores.TOP, "client", "install")
ALONE = {"PATH": os.defpath, "HOME": "/nonexistent", "LC_ALL": "C.UTF-8"}


class Installed(stores.WithStore):
    """A prefix of its own."""

    def setUp(self):
        super().setUp()
        self.prefix = os.path.join(self.work, "prefix")
        self.put(self.prefix)

    def put(self, *words):
        done = subprocess.run([INSTALL, *words, "--program", program()], stdout=subprocess.PIPE, stderr=subprocess.PIPE)
        self.assertEqual((done.returncode, done.stderr), (0, b""), done)
        return done.stdout.decode().splitlines()

    def path(self, *parts):
        return os.path.join(self.prefix, *parts)

    def test_it_works_alone(self):
        moved, source = os.path.join(self.work, "moved"), os.path.join(self.work, "source")
        os.rename(self.prefix, moved)
        os.mkdir(source)
        for given in (["--version"], ["init"], ["backup", "host/me", source], ["verify"], ["restore", "host/me", "--target", os.path.join(self.work, "back")]):
            done = subprocess.run([os.path.join(moved, "bin", "pbclient"), "-r", self.root, *given], env=ALONE, stdout=subprocess.PIPE, stderr=subprocess.STDOUT, cwd="/")
            self.assertEqual(done.returncode, 0, done.stdout)

    def test_again(self):
        with open(self.path("lib", "pbclient", "pbclient", "gone.py"), "w"):
            pass
        self.put(self.prefix)
        self.assertFalse(os.path.exists(self.path("lib", "pbclient", "pbclient", "gone.py")))

    def test_for_a_package(self):
        found = self.put("/usr", "--destdir", os.path.join(self.work, "package"))
        self.assertIn(os.path.join(self.work, "package", "usr", "bin", "pbclient"), found)
        with open(os.path.join(self.work, "package", "usr", "lib", "systemd", "system", "pbclient.service")) as it:
            self.assertIn("ExecStart=/usr/bin/pbclient --quiet run-config", it.read())

    @unittest.skipUnless(shutil.which("systemd-analyze"), "systemd is not here")
    def test_units(self):
        units = [self.path("lib", "systemd", "system", it) for it in ("pbclient.service", "pbclient.timer", "pbclient-serve@.service")]
        units[-1] = shutil.copy(units[-1], self.path("pbclient-serve@main.service"))
        done = subprocess.run(["systemd-analyze", "verify", "--man=no", *units], stdout=subprocess.PIPE, stderr=subprocess.STDOUT)
        self.assertNotIn(b"pbclient", done.stdout)

    def test_a_unit_without_its_file_fails(self):
        for unit, file in (("pbclient.service", pages.CONFIG), ("pbclient-serve@.service", f"{pages.SERVED}/%i")):
            with open(self.path("lib", "systemd", "system", unit)) as it:
                # (by ConditionPathExists nothing would be started, and systemctl would end with 0)
                self.assertIn(f"\nAssertPathExists={file}\n", it.read())

    def test_no_program(self):
        done = subprocess.run([INSTALL, self.prefix, "--program", "/nowhere"], stderr=subprocess.PIPE)
        self.assertEqual((done.returncode, done.stderr.count(b"\n")), (1, 1), done)


class Pages(unittest.TestCase):
    """The man page, the completion and the example of a night."""

    def test_the_man_page_has_each_word(self):
        page = pages.man_page()
        for it in words.COMMANDS:
            self.assertIn(f".SS {pages.escaped(words.usage(it))}", page)
            for option in it.options:
                self.assertIn(f".B {pages.escaped(words.spelled(option))}\n", page)
        for option in words.COMMON:
            self.assertIn(f".B {pages.escaped(words.spelled(option))}\n", page)

    @unittest.skipUnless(shutil.which("groff"), "groff is not here")
    def test_groff_reads_it_without_a_word(self):
        done = subprocess.run(["groff", "-man", "-Tutf8", "-ww"], input=pages.man_page().encode(), stdout=subprocess.PIPE, stderr=subprocess.PIPE)
        self.assertEqual((done.returncode, done.stderr), (0, b""), done.stderr)

    def completed(self, *typed):
        """What bash would offer in place of the last word."""
        with tempfile.NamedTemporaryFile("w") as it:
            it.write(pages.completion())
            it.flush()
            script = f'source {it.name}; COMP_WORDS=("$@"); COMP_CWORD=$(($# - 1)); _pbclient; printf "%s\\n" "${{COMPREPLY[@]}}"'
            done = subprocess.run(["bash", "-c", script, "bash", *typed], stdout=subprocess.PIPE, check=True)
        return done.stdout.decode().split()

    @unittest.skipUnless(shutil.which("bash"), "bash is not here")
    def test_completion(self):
        self.assertEqual(sorted(self.completed("pbclient", "")), sorted([*(it.name for it in words.COMMANDS), "help"]))
        self.assertEqual(self.completed("pbclient", "-r", "/tmp", "pru"), ["prune"])
        self.assertEqual(self.completed("pbclient", "help", "sna"), ["snapshots"])
        self.assertEqual(self.completed("pbclient", "prune", "--keep-w"), ["--keep-weekly"])
        self.assertEqual(self.completed("pbclient", "gc", "--wa"), ["--wait"])
        self.assertEqual(self.completed("pbclient", "-r", "/et"), ["/etc"])
        for it in words.COMMANDS:
            names = {name for option in (*it.options, *words.COMMON) for name in option.names}
            self.assertLessEqual(names, set(self.completed("pbclient", it.name, "-")), it.name)

    def test_the_example_is_a_night(self):
        with tempfile.NamedTemporaryFile("w") as it:
            it.write(pages.example())
            it.flush()
            _, options = words.read(["run-config", it.name])
            self.assertEqual([section for section, *_ in nightly.plan(it.name, options)], ["backup host/me", "prune", "gc", "check"])


if __name__ == "__main__":
    unittest.main()
