"""What the checks of a running gate spend: read off the system's table of processes while it runs."""
import os
import threading

TICKS = os.sysconf("SC_CLK_TCK")
PAUSE = 0.5  # seconds between two looks; a process's last moments may be missed


def words_of(pid):
    with open(f"/proc/{pid}/cmdline", "rb") as it:
        return it.read().decode(errors="replace").split("\0")


def part_of(words, folder):
    """The crate that a check is of, and whether it is of its proof, its tests or an edit; None for another process."""
    if not os.path.basename(words[0]) == "rattle" or "--crate-name" not in words:
        return None
    name = words[words.index("--crate-name") + 1]
    return name, "edits" if "rt-edit-" in folder else "tests" if "--test" in words else "proof"


def spent_by(pid):
    """When a process began, its processor seconds and its largest size in MB."""
    with open(f"/proc/{pid}/stat", encoding="ascii", errors="replace") as it:
        numbers = it.read().rpartition(")")[2].split()
    with open(f"/proc/{pid}/status", encoding="utf-8", errors="replace") as lines:
        most = next((int(it.split()[1]) for it in lines if it.startswith("VmHWM:")), 0)
    return int(numbers[19]), (int(numbers[11]) + int(numbers[12])) / TICKS, most / 1024


class Watch(threading.Thread):
    """Looks at all checks below a folder, or on copies of its crates, until it is told to end."""

    def __init__(self, root):
        super().__init__(daemon=True)
        self.root, self.seen, self.over = root, {}, threading.Event()

    def look(self, pid):
        folder = os.readlink(f"/proc/{pid}/cwd")
        if folder.startswith(f"{self.root}/") or "rt-edit-" in folder:
            part = part_of(words_of(pid), folder)
            if part:
                began, seconds, memory = spent_by(pid)
                self.seen[pid, began] = part, seconds, memory

    def run(self):
        while not self.over.wait(PAUSE):
            for pid in filter(str.isdigit, os.listdir("/proc")):
                try:
                    self.look(pid)
                except (OSError, IndexError, ValueError):
                    pass

    def end(self):
        """Ends, and gives for each part of each crate its processor seconds and its largest process in MB."""
        self.over.set()
        self.join()
        found = {}
        for part, seconds, memory in self.seen.values():
            before = found.get(part, (0.0, 0.0))
            found[part] = before[0] + seconds, max(before[1], memory)
        return found
