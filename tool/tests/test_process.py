"""What a process can meet."""

import os
import subprocess
import threading
import time
import unittest

from tool import LIST, SYNTAX, TOOL, Case, seen


class Process(Case):
    def test_bad_arguments(self) -> None:
        for arguments in (
            [],
            ["frob"],
            ["convert", "--to", "xml"],
            ["convert", "--to"],
            ["convert", "--frob"],
            ["convert", "-x"],
            ["convert", "a", "b"],
            ["show", "--paths=1"],
            ["check"],
            ["check", "--threads", "0", "a"],
            ["check", "--threads", "x", "a"],
            ["check", "--threads", "+2", "a"],
            ["check", "-", "-"],
            ["replace", "0"],
            ["same", "a"],
            [b"\xff\xfe"],
            ["convert", b"--\xff"],
        ):
            self.fails(2, b"etglavino: ", *arguments)

    def test_every_command_that_reads(self) -> None:
        self.file("empty", b"")
        self.file("large", b"a".ljust(40_000))
        (self.folder / "folder").mkdir()
        before = self.names()
        answers = (
            ("empty", 1, SYNTAX + b"cut short after 0 octets\n"),
            ("large", 1, b"refused 2: "),
            ("folder", 2, b"Is a directory"),
            ("missing", 2, b"No such file"),
        )
        for arguments in (
            ["convert"],
            ["check"],
            ["show"],
            ["show", "--html"],
            ["table"],
            ["replace", "0", "a"],
            ["insert", "0", "0", "a"],
            ["remove", "1"],
            ["extract"],
            ["hours"],
            ["spool", "add", "desk"],
        ):
            for name, status, said in answers:
                self.fails(status, name.encode() + b": " + said, *arguments, name)
                self.assertEqual(self.names(), before)
        self.file("list", LIST)
        for name, status, said in answers:
            self.fails(status, name.encode() + b": " + said, "same", "list", name)
            self.fails(status, name.encode() + b": " + said, "same", name, "list")
        for name, _, said in answers[2:]:
            for arguments in (["split", name], ["spool", "list", name], ["spool", "get", name, "0"], ["spool", "check", name]):
                self.fails(2, name.encode() + b": " + said, *arguments)
        self.fails(1, b"large, sheet 0: " + SYNTAX + b"from octet 0 on", "split", "large")

    def test_help(self) -> None:
        _, whole, _ = self.run_tool("--help")
        names = [line[2:14].strip() for line in whole.decode().splitlines() if line.startswith("  ")]
        self.assertIn("spool add", names)
        for name in names:
            status, out, said = self.run_tool(*name.split(), "--help")
            self.assertEqual((status, said), (0, b""))
            self.assertIn(f"usage: etglavino {name}".encode(), out)
            # Flags have a line each, however long; all else fits a terminal of 90 columns.
            long = [line for line in out.decode().splitlines() if len(line) > 90 and not line.startswith("  -")]
            self.assertEqual(long, [])
        status, out, _ = self.run_tool("spool", "--help")
        self.assertEqual((status, out.count(b"\n  spool ")), (0, 4))
        status, out, _ = self.run_tool("--version")
        self.assertEqual((status, out[:10]), (0, b"etglavino "))

    def test_closed_pipes(self) -> None:
        text = b"(" + b"a " * 4000 + b")"
        for arguments in (["show"], ["convert"], ["table"], ["--help"]):
            reading, writing = os.pipe()
            os.close(reading)
            run = subprocess.run(
                [TOOL, *arguments], input=text, stdout=writing, stderr=subprocess.PIPE, check=False
            )
            os.close(writing)
            self.assertEqual((run.returncode, run.stderr), (2, b""))
        reading, writing = os.pipe()
        os.close(reading)
        run = subprocess.run([TOOL, "frob"], stdout=subprocess.PIPE, stderr=writing, check=False)
        os.close(writing)
        self.assertEqual((run.returncode, run.stdout), (2, b""))

    def test_a_closed_output(self) -> None:
        self.file("list", LIST)
        for arguments in ("convert list", "same list list", "--help", "spool add --help"):
            command = ["bash", "-c", f'"$0" {arguments} >&-', TOOL]
            run = subprocess.run(command, cwd=self.folder, capture_output=True, check=False)
            self.assertEqual((run.returncode, run.stderr), (2, b"etglavino: standard output: it is closed\n"))
        # Nobody misses what isn't written there.
        for arguments in ("check list", "convert --output new list"):
            command = ["bash", "-c", f'"$0" {arguments} >&-', TOOL]
            run = subprocess.run(command, cwd=self.folder, capture_output=True, check=False)
            self.assertEqual((run.returncode, run.stderr), (0, b""))
        self.assertEqual((self.folder / "new").read_bytes(), LIST)
        # A null device that somebody asked for, opened to write or to read and write.
        for how in (os.O_WRONLY, os.O_RDWR):
            nowhere = os.open(os.devnull, how)
            run = subprocess.run([TOOL, "convert", "list"], cwd=self.folder, stdout=nowhere, check=False)
            os.close(nowhere)
            self.assertEqual(run.returncode, 0)

    def test_names_are_shown_in_a_line(self) -> None:
        name, shown = b"a\n\x1b[2J\xff\xc3\xb6", rb"a\x0a\x1b[2J\xff" + b"\xc3\xb6"
        self.file(os.fsdecode(name), b"(")
        line = b"etglavino: " + shown + b": " + SYNTAX + b"cut short after 1 octet\n"
        answer = self.run_tool("check", name, name)
        self.assertEqual(answer, (1, b"", line * 2 + b"2 files: 0 good, 2 refused, 0 not read\n"))
        missing = (name + b"2", shown + b"2")
        for said, *arguments in (
            (shown, "convert", name),
            (missing[1], "convert", missing[0]),
            (missing[1], "spool", "list", missing[0]),
            (shown, "spool", "check", name),
            (shown, "convert", "--to", name),
            (shown, "check", "--threads", name, name),
            (shown, name),
            (shown, "spool", name),
            (shown, "table", "list", name),
            (b"--" + shown, "table", b"--" + name),
            (shown, "remove", name, "list"),
            (shown, "insert", "0", name, "a", "list"),
            (shown, "spool", "get", "list", name),
            (shown, "replace", "--output", name + b"/x", "0", "a", "-"),
        ):
            status, out, said_so = self.run_tool(*arguments, source=LIST)
            self.assertIn((status, out), ((1, b""), (2, b"")))
            self.assertIn(said, said_so)
            self.assertNotIn(b"\x1b", said_so)
            self.assertNotIn(b"\xff", said_so)

    def test_a_full_disk(self) -> None:
        with open("/dev/full", "wb") as full:
            run = subprocess.run(
                [TOOL, "convert"], input=LIST, stdout=full, stderr=subprocess.PIPE, check=False
            )
        self.assertEqual(run.returncode, 2)
        self.assertIn(b"standard output: No space left", run.stderr)

    def test_files_are_read_in_parallel(self) -> None:
        # Each of two readers waits for its own pipe: one thread could not get past the
        # first, whose writer comes last.
        for name in ("a", "b"):
            os.mkfifo(self.folder / name)
        run = subprocess.Popen(
            [TOOL, "check", "--threads", "2", "a", "b"], cwd=self.folder, stderr=subprocess.PIPE
        )
        for name in ("b", "a"):
            (self.folder / name).write_bytes(b"()")
        _, said = run.communicate(timeout=20)
        self.assertEqual(said, b"2 files: 2 good, 0 refused, 0 not read\n")

    def test_as_many_threads_as_asked_for(self) -> None:
        # All readers wait for the pipe, so all threads are there beside the first.
        os.mkfifo(self.folder / "a")
        for asked, threads in (("1", 1), ("3", 3), ("9", 4)):
            run = subprocess.Popen(
                [TOOL, "check", "--threads", asked, *"aaaa"], cwd=self.folder, stderr=subprocess.PIPE
            )
            tasks, end = f"/proc/{run.pid}/task", time.monotonic() + 20
            while len(os.listdir(tasks)) < threads + 1 and time.monotonic() < end:
                time.sleep(0.01)
            time.sleep(0.05)
            there = len(os.listdir(tasks))
            run.kill()
            run.communicate()
            self.assertEqual(there, threads + 1)

    def bar(self, seconds: float, *command: str) -> bytes:
        """What a terminal sees of a command on two files that takes so long."""
        slow = self.folder / "slow"
        os.mkfifo(slow)

        def write() -> None:
            time.sleep(seconds)
            slow.write_bytes(b"()")

        writer = threading.Thread(target=write)
        writer.start()
        text = seen([TOOL, *command, "slow", "slow2"], self.folder)
        writer.join()
        slow.unlink()
        return text

    def test_a_bar_for_whoever_waits(self) -> None:
        self.file("slow2", b"()")
        for command in (["check"], ["spool", "add", "desk"]):
            self.assertNotIn(b"#", self.bar(0.1, *command))
            text = self.bar(1.4, *command)
            self.assertIn(b"] 1 of 2", text)
            self.assertIn(b"#" * 40 + b"] 2 of 2", text)


if __name__ == "__main__":
    unittest.main()
