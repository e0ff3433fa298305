"""Nothing lost, nothing twice: crashes, two postings at once, full disks, folders that can't be written, an altered trail."""

import contextlib
import errno
import io
import os
import resource
import shutil
import signal
import subprocess
import sys
import unittest
from pathlib import Path
from unittest import mock

from desks import LOFT, DeskTest, another_login

from desk import files
from desk.main import main

TUESDAY = "client TM-1 as Late\nreceive Late cash 70\nallocate Late cash 70\nmargin Late 60\nrelease A 5\n"


class Guarded(DeskTest):
    """A desk at P4, and Tuesday's file with what it leaves."""

    def setUp(self) -> None:
        super().setUp()
        self.monday()
        self.tuesday = self.file("tuesday.txt", TUESDAY)
        self.before = self.book()
        self.base = self.folder / "base"
        shutil.copytree(self.desk, self.base)
        self.loft("post", self.desk, self.tuesday, status=1)
        self.after = self.book()
        self.again()

    def again(self) -> None:
        """The desk as it was before Tuesday."""
        shutil.rmtree(self.desk)
        shutil.copytree(self.base, self.desk)

    def settled(self, was: str) -> None:
        """Posting once more carries it out, or says that it is; either way it is there once, and the trail replays."""
        ran = self.loft("post", self.desk, self.tuesday)
        self.assertIn(ran.status, (1, 2), was + ran.err)
        if ran.status == 2:
            self.assertIn("posted already: posting 2", ran.err, was)
        self.assertEqual(self.book(), self.after, was)
        self.assertEqual(self.postings(), ["000000", "000001", "000002"], was)
        self.assertIn("4,Late\n", (self.desk / "names.csv").read_text(), was)
        self.assertEqual(sorted(path.name for path in self.desk.iterdir()), ["book", "lock", "names.csv", "trail"], was)
        self.verified()


class Killed(Guarded):
    def test_killed_at_every_other_step(self) -> None:
        kills, undone, finished = 0, 0, 0
        for step in range(1, 200, 2):
            ran = self.loft("post", self.desk, self.tuesday, environment={"LOFT_STOP_AT": str(step)})
            if ran.status != -signal.SIGKILL:
                break
            kills += 1
            told = self.loft("show", self.desk, status=0).err
            undone += "It is undone" in told
            finished += "It is finished now" in told
            self.settled(f"killed at step {step}: ")
            self.again()
        self.assertGreaterEqual(kills, 20)
        self.assertGreater(undone, 5)
        self.assertGreater(finished, 1)

    def test_killed_while_it_is_put_right(self) -> None:
        for first, second in ((12, 2), (34, 1), (34, 3), (40, 4), (46, 2)):
            self.loft("post", self.desk, self.tuesday, environment={"LOFT_STOP_AT": str(first)})
            self.loft("show", self.desk, environment={"LOFT_STOP_AT": str(second)})
            self.settled(f"killed at {first}, then at {second}: ")
            self.again()

    def test_archive_killed(self) -> None:
        self.loft("post", self.desk, self.file("r.txt", "client TM-1 as Gone\nretire Gone\n"), status=0)
        shutil.rmtree(self.base)
        shutil.copytree(self.desk, self.base)
        for step in range(2, 60, 7):
            self.loft("archive", self.desk, environment={"LOFT_STOP_AT": str(step)})
            self.loft("archive", self.desk, status=0)
            self.assertEqual((self.desk / "archived").read_text(), "4 client 1\n")
            self.verified()
            self.again()

    def test_init_killed(self) -> None:
        for step in range(1, 40, 4):
            folder = self.folder / f"new{step}"
            self.loft("init", folder, environment={"LOFT_STOP_AT": str(step)})
            self.assertIn(self.loft("init", folder).status, (0, 2))
            self.loft("verify", folder, status=0)


class AtOnce(Guarded):
    def test_two_postings_at_once(self) -> None:
        for turn in range(3):
            texts = [self.file(f"{turn}{clerk}.txt", f"receive A {turn + 1}\nreceive TM-1 {clerk + 1}\n") for clerk in range(4)]
            running = [subprocess.Popen([str(LOFT), "post", str(self.desk), str(text)], stdout=subprocess.DEVNULL, stderr=subprocess.DEVNULL) for text in texts]
            self.assertEqual([each.wait() for each in running], [0] * 4)
        self.assertEqual(len(self.postings()), 2 + 12)
        said = self.loft("show", self.desk, "A", status=0).out
        self.assertIn("cash          324.00     300.00", said)
        self.verified()

    def test_who_waits_is_told(self) -> None:
        with files.locked(self.desk / "lock"):
            with subprocess.Popen([str(LOFT), "show", str(self.desk)], stdout=subprocess.DEVNULL, stderr=subprocess.PIPE, text=True) as waiting:
                assert waiting.stderr is not None
                self.assertIn("waiting for it", waiting.stderr.readline())
                self.assertIsNone(waiting.poll())
                waiting.terminate()

    def test_the_same_file_at_once(self) -> None:
        running = [subprocess.Popen([str(LOFT), "post", str(self.desk), str(self.tuesday)], stdout=subprocess.DEVNULL, stderr=subprocess.DEVNULL) for _ in range(3)]
        self.assertEqual(sorted(each.wait() for each in running), [1, 2, 2])
        self.settled("three at once: ")


class Failing(Guarded):
    """Disks that are full: at every step once, and from every step on."""

    def posted(self, fails: "Failing.Fails") -> int:
        with mock.patch.object(sys, "argv", ["loft", "post", str(self.desk), str(self.tuesday)]):
            with mock.patch.object(files, "step", fails), mock.patch("desk.trail.step", fails), mock.patch("desk.folder.step", fails):
                with contextlib.redirect_stdout(io.TextIOWrapper(io.BytesIO())), contextlib.redirect_stderr(io.StringIO()) as told:
                    status = main()
        self.told = told.getvalue()
        return status

    class Fails:
        """No room at one step, or from it on."""

        def __init__(self, at: int, for_good: bool) -> None:
            self.at, self.for_good, self.count = at, for_good, 0

        def __call__(self) -> None:
            self.count += 1
            if self.count == self.at or (self.for_good and self.count > self.at):
                raise OSError(errno.ENOSPC, os.strerror(errno.ENOSPC))

    def test_full_at_every_step(self) -> None:
        for for_good in (False, True):
            for at in range(1, 200, 5):
                fails = self.Fails(at, for_good)
                status = self.posted(fails)
                if fails.count < at:
                    self.again()
                    break
                self.assertEqual(status, 3, f"step {at}: {self.told}")
                self.assertIn("No space left on device", self.told)
                self.assertEqual(len(self.told.splitlines()), 1)
                self.assertIn(self.book(), (self.before, self.after))
                self.assertEqual("is carried out" in self.told, self.book() == self.after, self.told)
                self.settled(f"full at step {at}: ")
                self.again()
            self.assertGreater(at, 30)

    def test_files_that_may_grow_no_further(self) -> None:
        def small() -> None:
            resource.setrlimit(resource.RLIMIT_FSIZE, (20_000, 20_000))

        ran = self.loft("post", self.desk, self.tuesday, status=3, preexec_fn=small)
        self.assertEqual(len(ran.err.splitlines()), 1)
        self.assertEqual(self.book(), self.before)
        self.settled("no file above 20,000 bytes: ")

    def test_a_full_disk(self) -> None:
        disk = self.folder / "disk"
        disk.mkdir()
        if os.geteuid() or subprocess.run(["mount", "-t", "tmpfs", "-o", "size=192k", "none", str(disk)], capture_output=True, check=False).returncode:
            self.skipTest("only root can mount a small disk")
        try:
            small = disk / "desk"
            shutil.copytree(self.base, small)
            statuses = [self.loft("post", small, self.file(f"{each}.txt", f"receive A {each}\n" + "# much\n" * 2000)).status for each in range(1, 9)]
            self.assertEqual(statuses, sorted(statuses))
            self.assertEqual((statuses[0], statuses[-1]), (0, 3))
            self.loft("show", small, status=0)
            self.loft("verify", small, status=0)
            held = 300 + sum(range(1, 1 + statuses.count(0)))
            self.assertIn(f" {held}.00", self.loft("show", small, "A", status=0).out)
        finally:
            subprocess.run(["umount", str(disk)], check=True)

    def test_output_that_is_full(self) -> None:
        with open("/dev/full", "w") as full:
            for words in (["show", str(self.desk)], ["check", str(self.desk), str(self.tuesday)]):
                ended = subprocess.run([str(LOFT), *words], stdout=full, stderr=subprocess.PIPE, text=True, check=False)
                self.assertEqual(ended.returncode, 3, words)
                self.assertIn("No space left on device", ended.stderr)
                self.assertNotIn("Traceback", ended.stderr)

    def test_a_folder_that_can_only_be_read(self) -> None:
        who = another_login()
        if os.geteuid() == 0 and not who:
            self.skipTest("nobody can't reach this folder")
        if not who:
            for path in (self.desk, self.desk / "trail"):
                path.chmod(0o555)
                self.addCleanup(path.chmod, 0o755)
        self.loft("show", self.desk, status=0, **who)
        self.loft("verify", self.desk, status=0, **who)
        self.loft("check", self.desk, self.tuesday, status=1, **who)
        ran = self.loft("post", self.desk, self.tuesday, status=3, **who)
        self.assertIn("Permission denied", ran.err)
        self.assertEqual(len(ran.err.splitlines()), 1)
        self.assertEqual(self.book(), self.before)
        self.loft("page", self.desk, self.desk / "p.html", status=3, **who)
        self.loft("init", self.desk / "inner", status=3, **who)


    def test_two_clerks_with_logins_of_their_own(self) -> None:
        who = another_login()
        if not who:
            self.skipTest("there is no other login")
        for path in (self.desk, *self.desk.rglob("*")):
            path.chmod(0o777 if path.is_dir() else 0o666)
        self.loft("post", self.desk, self.tuesday, status=1, **who)
        self.assertNotEqual(self.book(), self.before)
        self.assertEqual((self.desk / "book").stat().st_mode & 0o777, 0o666)
        self.loft("post", self.desk, self.file("more.txt", "receive CM cash 1\n"), status=0)
        self.loft("verify", self.desk, status=0)


class Altered(Guarded):
    def altered(self, path: Path, what: str) -> None:
        data = bytearray(path.read_bytes())
        place = len(data) // 2
        data[place] ^= 1
        path.write_bytes(bytes(data))
        ran = self.loft("verify", self.desk, status=3)
        self.assertIn(what, ran.err, str(path))
        data[place] ^= 1
        path.write_bytes(bytes(data))

    def test_a_byte_of_the_trail(self) -> None:
        self.loft("post", self.desk, self.tuesday, status=1)
        for number in (0, 1, 2):
            for path in sorted((self.desk / "trail" / f"{number:06d}").iterdir()):
                self.altered(path, f"posting {number} differs")
        self.verified()

    def test_a_byte_of_the_book(self) -> None:
        self.altered(self.desk / "book", "isn't the book that they lead to")
        data = bytearray(self.book())
        data[100] ^= 1
        (self.desk / "book").write_bytes(bytes(data))
        for words in (["show", self.desk], ["post", self.desk, self.tuesday], ["page", self.desk, self.folder / "p"]):
            self.assertIn("isn't the book that posting 1 left", self.loft(*words, status=3).err)

    def test_what_is_missing_or_more(self) -> None:
        self.loft("post", self.desk, self.tuesday, status=1)
        trail = self.desk / "trail"
        (trail / "stray").write_text("x")
        self.assertIn("no part of the trail", self.loft("verify", self.desk, status=3).err)
        (trail / "stray").unlink()
        (trail / "000001" / "more").write_text("x")
        self.assertIn("posting 1 differs: more is no part of it", self.loft("verify", self.desk, status=3).err)
        (trail / "000001" / "more").unlink()
        (trail / "000001" / "came").unlink()
        self.assertIn("posting 1 differs: came is missing", self.loft("verify", self.desk, status=3).err)
        shutil.rmtree(trail / "000001")
        self.assertIn("posting 1 differs: it is missing", self.loft("verify", self.desk, status=3).err)

    def test_sums_put_right_by_hand(self) -> None:
        """A file of a posting altered together with every sum is still found: the programs answer otherwise."""
        import hashlib

        kept = self.desk / "trail" / "000001"
        out = (kept / "out").read_bytes()
        bad = out.replace(b"0 1 0 0 1", b"0 1 0 0 2")
        what = (kept / "what.json").read_text().replace(hashlib.sha256(out).hexdigest(), hashlib.sha256(bad).hexdigest())
        (kept / "out").write_bytes(bad)
        (kept / "what.json").write_text(what)
        (kept / "done").write_text(hashlib.sha256(what.encode()).hexdigest() + "\n")
        self.assertIn("posting 1 differs: out comes out otherwise", self.loft("verify", self.desk, status=3).err)


if __name__ == "__main__":
    unittest.main()
