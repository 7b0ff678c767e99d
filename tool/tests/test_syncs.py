"""What is asked of the system, as strace sees it: what is synced, and when."""

import os
import re
import shutil
import subprocess
import unittest

from tool import LIST, TOOL, Case, seen

STRACE = shutil.which("strace")


def traces() -> bool:
    """Whether there is a strace that may trace."""
    command = [STRACE, "-o", "/dev/null", "true"]
    return STRACE is not None and subprocess.run(command, capture_output=True, check=False).returncode == 0


@unittest.skipUnless(traces(), "there is no strace")
class Syncs(Case):
    def calls(self, *arguments) -> list[str]:
        """Writes, syncs and renamings, each with the names of its files in the folder."""
        log = self.folder / "log"
        watched = "trace=write,pwrite64,fsync,fdatasync,rename,renameat,renameat2"
        command = [STRACE, "-f", "-y", "-o", str(log), "-e", watched, TOOL, *arguments]
        subprocess.run(command, cwd=self.folder, check=True)
        folder = re.escape(str(self.folder.resolve()))
        calls = []
        for line in log.read_text().splitlines():
            name = re.search(r"(\w+)\(", line)
            files = re.findall(rf"<{folder}(?:/([^>]*))?>", line)
            if name and name[1].startswith("rename"):
                files = [os.path.basename(path) for path in re.findall(r'"([^"]*)"', line)]
            if name and files:
                files = [re.sub(r"\.etglavino-.*", "beside", file) for file in files]
                calls.append(" ".join([name[1].removesuffix("64"), *files]).strip())
        log.unlink()
        return calls

    def test_a_file_is_synced_before_it_takes_its_name_and_the_folder_after(self) -> None:
        whole = ["write beside", "fsync beside", "rename beside list", "fsync"]
        self.file("list", LIST)
        self.assertEqual(self.calls("replace", "1", "hi", "list"), whole)
        self.assertEqual(self.calls("convert", "--output", "list", "list"), whole)
        (self.folder / "list").unlink()
        self.file("other", LIST)
        self.assertEqual(self.calls("show", "--html", "--output", "list", "other"), whole)

    def test_a_bar_while_sheets_are_added(self) -> None:
        names = [f"{number}" for number in range(5)]
        for name in names:
            self.file(name, LIST)
        # Each sheet is synced twice, which takes 0.6 seconds, and read at once.
        slow = ["-e", "trace=msync", "-e", "inject=msync:delay_enter=300000"]
        command = [STRACE, "-f", "-o", "/dev/null", *slow, TOOL, "spool", "add", "desk", *names]
        text = seen(command, self.folder)
        drawn = {int(count) for count in re.findall(rb"\] (\d) of 5", text)}
        self.assertTrue(drawn & {2, 3, 4}, text)
        self.assertIn(b"#" * 40 + b"] 5 of 5\r\n", text)


if __name__ == "__main__":
    unittest.main()
