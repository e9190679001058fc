"""What the measures share: where the program is, and how much memory a running process took."""
import os

TOP = os.path.dirname(os.path.dirname(os.path.abspath(__file__)))
PANTO = os.path.join(TOP, "crates", "panto", "out", "panto")

def peak_of(pid):
    """The peak resident size of a running process in KiB, counted since its program began; 0 where it has ended."""
    try:
        with open(f"/proc/{pid}/status") as status:
            return next((int(line.split()[1]) for line in status if line.startswith("VmHWM")), 0)
    except OSError:
        return 0
