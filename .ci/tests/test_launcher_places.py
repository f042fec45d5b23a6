"""Tests of the launcher: from where it is called, and by which name."""

import os
import unittest

from stand_in import Case


class Places(Case):
    def assert_runs_and_builds(self, launcher, cwd=None, **how):
        self.assert_runs("a word", launcher=launcher, cwd=cwd, **how)
        self.make_missing()
        ended = self.call("a word", launcher=launcher, cwd=cwd, **how)
        self.assertEqual(ended.stdout, self.expected("a word", cwd=cwd))
        self.assertEqual(self.calls(), ["ci"])

    def link(self, target, name):
        os.makedirs(os.path.dirname(f"{self.room}/{name}"), exist_ok=True)
        os.symlink(target, f"{self.room}/{name}")
        return f"{self.room}/{name}"

    def test_a_link(self):
        self.assert_runs_and_builds(self.link(f"{self.top}/stabsim", "bin/stab"))

    def test_a_relative_link(self):
        self.assert_runs_and_builds(self.link("../../repository/stabsim", "home/bin/stab"), cwd=self.tools)

    def test_a_link_to_a_link(self):
        self.link("../repository/stabsim", "one/stab")
        self.assert_runs_and_builds(self.link("../one/stab", "two/stab"))

    def test_a_link_to_the_folder(self):
        self.assert_runs_and_builds(self.link("repository", "linked") + "/stabsim")

    def test_a_link_by_path(self):
        self.link(f"{self.top}/stabsim", "bin/stab")
        self.assert_runs_and_builds(["sh", "-c", f'PATH="{self.room}/bin:$PATH"; exec stab "$@"', "sh"], cwd=self.tools)

    def test_its_own_folder(self):
        self.assert_runs_and_builds("./stabsim", cwd=self.top)

    def test_another_folder(self):
        self.assert_runs_and_builds("../../repository/stabsim", cwd=self.make_folder("some/where"))

    def test_path(self):
        self.assert_runs_and_builds(["sh", "-c", f'PATH="{self.top}:$PATH"; exec stabsim "$@"', "sh"], cwd=self.tools)

    def test_a_shell_that_reads_it(self):
        self.assert_runs_and_builds(["sh", "stabsim"], cwd=self.top)

    def test_folders_with_odd_names(self):
        for name in ("with a blank", "it's", 'a "quote"', "a=b", "[ab]*", "$HOME", "-minus", "two\nlines"):
            with self.subTest(name):
                os.rename(self.top, f"{self.room}/{name}")
                self.top = f"{self.room}/{name}"
                self.assert_runs_and_builds(f"{self.top}/stabsim")
                self.assert_runs("a word", launcher="./stabsim", cwd=self.top)

    def test_a_link_in_a_folder_with_a_blank(self):
        self.assert_runs_and_builds(self.link(f"{self.top}/stabsim", "a blank/s t a b"))

    def make_folder(self, name):
        os.makedirs(f"{self.room}/{name}")
        return f"{self.room}/{name}"


if __name__ == "__main__":
    unittest.main()
