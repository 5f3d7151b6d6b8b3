"""The starter set: the templates of grants, those of mentions, and both together in one folder."""
import contextlib
import os
import tempfile

ENDING = ".template.txt"
EXAMPLES = os.path.join(os.path.dirname(os.path.abspath(__file__)), "..", "..", "examples")
GRANTS = os.path.join(EXAMPLES, "templates")
MENTIONS = os.path.join(EXAMPLES, "mentions")
EXPRESSIONS = os.path.join(EXAMPLES, "expressions")


@contextlib.contextmanager
def both():
    """A folder with links to all of them."""
    with tempfile.TemporaryDirectory() as folder:
        for kind in (GRANTS, MENTIONS):
            for name in os.listdir(kind):
                if name.endswith(ENDING):
                    os.symlink(os.path.abspath(os.path.join(kind, name)), os.path.join(folder, name))
        yield folder
