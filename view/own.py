"""The files that belong to the layer itself, as a page's style. They may stand in an archive, out
of which Python reads the modules."""
import os


def own_text(name: str) -> str:
    """The text of a file of `view/`, by its path in there. It raises `OSError` where there is
    none."""
    path = os.path.join(os.path.dirname(__file__), *name.split("/"))
    data: bytes = __spec__.loader.get_data(path)  # type: ignore[name-defined]
    return data.decode("utf-8")
