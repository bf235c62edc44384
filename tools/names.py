"""Names in the files of crates/, for the checks of docs/: whether a file defines one, and where a document points at it."""
import os, re

TOP = os.path.dirname(os.path.dirname(os.path.abspath(__file__)))
# a path of a file under crates/, and the names of what is in it: geometry/proofs/Bytes.antt `lay-fits`, `lay-short`
POINTER = r"\b(\w+/(?:src|specs|proofs)/[\w/]+\.(?:antt|rt))((?:,? `[^`]+`)*)"


def text_of(path):
    """What stands in a file under crates/; None where there is no such file."""
    path = os.path.join(TOP, "crates", path)
    if not os.path.isfile(path):
        return None
    with open(path) as file:
        return file.read()


def defines(path, name):
    """Whether a file under crates/ defines a name: a definition, a theorem, a type or one of its parts, or a function of src/."""
    text, name = text_of(path) or "", re.escape(name)
    if path.endswith(".rt"):
        return bool(re.search(rf"^ *(?:pub )?(?:(?:const|unsafe) (?=.*fn ))?(?:extern \"C\" )?(?:fn|struct|enum|trait|const|static) {name}\b", text, re.M))
    marks, others = r"^ *(?:(?:unfoldable|abbrev|pub) )*", r"[^\s:(){}]+"
    return bool(re.search(rf"{marks}(?:(?:data|record) {name} |(?:{others} )*{name}(?: {others})*(?: \{{[^}}]*\}})? :(?= |$))", text, re.M))


def pointers(text):
    """Each pointer of a text: the path, and the names behind it."""
    return [(path, re.findall(r"`([^`]+)`", names)) for path, names in re.findall(POINTER, text)]


def wrong_pointers(text):
    """What is wrong with the pointers of a text."""
    for path, names in pointers(text):
        if text_of(path) is None:
            yield f"there is no crates/{path}"
            continue
        for name in names:
            if not defines(path, name):
                yield f"crates/{path} does not define {name}"
