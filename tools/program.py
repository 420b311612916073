"""The built `bitrun`, for the scripts that run it."""
import subprocess
import sys
from pathlib import Path

ROOT = Path(__file__).resolve().parent.parent


def programs(named):
    """The programs that were named, else the one that `bitrun.sh` builds where that is still to do."""
    if named:
        return named
    done = subprocess.run([ROOT / 'bitrun.sh'], input=b'run u7\n\n', capture_output=True)
    if done.returncode != 0:
        sys.exit(f'bitrun.sh cannot build the program:\n{done.stderr.decode()}')
    return [str(ROOT / 'crates/bitrun/out/bitrun')]


def ending(program, data):
    """What the program prints on this input, its status, and the text on standard error."""
    done = subprocess.run([program], input=data, capture_output=True, timeout=60)
    return done.stdout, done.returncode, done.stderr
