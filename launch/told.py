"""What a user was told once, noted in a folder of the user's: for copies that nothing is written
to."""
import os


def is_news(text: str) -> bool:
    """Whether this isn't what was noted last; it is noted then, where that can be done."""
    folder = os.environ.get("XDG_STATE_HOME") or os.path.expanduser("~/.local/state")
    note = os.path.join(folder, "cise", "told")
    try:
        with open(note, encoding="utf-8") as file:
            if file.read() == f"{text}\n":
                return False
    except (OSError, ValueError):
        pass
    new = f"{note}.{os.getpid()}"
    try:
        os.makedirs(os.path.dirname(note), exist_ok=True)
        with open(new, "w", encoding="utf-8") as file:
            file.write(f"{text}\n")
        os.replace(new, note)
    except OSError:
        pass
    return True
