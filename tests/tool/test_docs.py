"""The examples of docs/TOOL.md and README.md: the lines after a '$', typed in order in one shell."""
import os
import re
import shutil
import subprocess
import unittest

from common import ROOT, TOOL, Case

# What a clone has once the tool is built, and the examples use.
PARTS = ("Makefile", "build/libyordzepa.a", "build/yordzepa", "crates", "crates.txt", "examples", "include", "tools",
         "yordzepa.pc.in")


def text_of(name):
    with open(os.path.join(ROOT, name)) as file:
        return file.read()


def examples(name):
    """Commands and what they print, from the indented lines of a page."""
    found = []
    inside = False
    for line in text_of(name).splitlines():
        if line.startswith("    $ "):
            found.append([line[6:], ""])
            inside = True
        elif line.startswith("    ") and inside:
            found[-1][1] += line[4:] + "\n"
        elif line == "" and inside:
            found[-1][1] += "\n"
        else:
            inside = False
    return [(command, printed.rstrip("\n")) for command, printed in found]


class Examples(Case):
    def setUp(self):
        """A folder that looks like a clone, and a home of its own."""
        super().setUp()
        for folder in ("build", "home", "bin"):
            os.mkdir(self.path(folder))
        for part in PARTS:
            os.symlink(os.path.join(ROOT, part), self.path(part))
        os.symlink(TOOL, self.path("bin/yordzepa"))
        shutil.copy(os.path.join(ROOT, "examples/day.txt"), self.folder)

    def typed(self, commands):
        """What each command prints, all typed into one shell."""
        mark = "-- the next command --"
        script = "".join("%s\necho '%s'\n" % (command, mark) for command in commands)
        done = subprocess.run(["sh", "-c", script], cwd=self.folder, stdout=subprocess.PIPE,
                              stderr=subprocess.STDOUT, stdin=subprocess.DEVNULL,
                              env=dict(os.environ, HOME=self.path("home"),
                                       PATH=self.path("bin") + ":" + os.environ["PATH"]))
        shown = done.stdout.decode().split(mark + "\n")
        self.assertEqual(len(shown), len(commands) + 1)
        return shown

    def check(self, name, least):
        found = examples(name)
        self.assertGreaterEqual(len(found), least)
        for (command, printed), shown in zip(found, self.typed([part[0] for part in found])):
            # What make itself says is not on the page.
            if not command.startswith("make "):
                self.assertEqual(shown.rstrip("\n"), printed, command)

    def test_tool(self):
        self.check("docs/TOOL.md", 12)

    def test_readme(self):
        self.check("README.md", 11)
        self.assertTrue(os.path.exists(self.path("home/yordzepa/share/man/man1/yordzepa.1")))

    def test_lines_of_the_program(self):
        """What README shows of 'make run' is what the gate holds the program to."""
        lines = text_of("crates/desk/stdout").splitlines()
        self.assertIn("\n".join("    " + line for line in lines), text_of("README.md"))

    def test_links(self):
        """The pages and files that the two pages name are there."""
        for name in ("README.md", "docs/TOOL.md"):
            for path in re.findall(r"\]\(([^)#]+)\)", text_of(name)):
                place = os.path.join(ROOT, os.path.dirname(name), path)
                self.assertTrue(os.path.exists(place), place)


if __name__ == "__main__":
    unittest.main()
