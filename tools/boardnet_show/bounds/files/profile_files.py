"""The files of a folder that say by their own `TF.FileFunction` that they are the board's profile."""
import os
from typing import List

from boardnet_show.formats import gerber_attributes
from boardnet_show.intake.file_names import MOST_BYTES

HEAD = 4096  # bytes of a file in which its function is looked for


def texts(folder: str) -> List[str]:
    """The texts of the profile files of a folder; a file that cannot be read says nothing."""
    found = []
    for path in (os.path.join(folder, name) for name in sorted(os.listdir(folder))):
        try:
            if os.path.isfile(path) and os.path.getsize(path) <= MOST_BYTES:
                with open(path, "rb") as file:
                    if any(it.fields[1:2] == [b"Profile"] for it in gerber_attributes.functions(file.read(HEAD))):
                        file.seek(0)
                        found.append(file.read().decode("latin-1"))
        except OSError:
            pass
    return found
