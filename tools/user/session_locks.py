"""Whether the game has a world open: it then holds a lock on session.lock."""
import fcntl
import os


def is_held(folder):
    try:
        with open(os.path.join(folder, "session.lock"), "rb") as file:
            fcntl.lockf(file, fcntl.LOCK_SH | fcntl.LOCK_NB)
    except FileNotFoundError:
        return False
    except OSError:  # somebody else's lock, which Windows shows as a file that can't be read
        return True
    return False
