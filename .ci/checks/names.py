"""For check-documents: what the types of the sources have."""
import re

TYPE = r"^impl\b(?:<[^{]*?>)? (?:[\w<>', ]+ for )?(\w+)|^(?:pub )?(?:struct|enum|trait) (\w+)"
MEMBER = r"\bfn (\w+)(?:<[^(]*>)?(?=\()|^    (?!pub |fn )(\w+)(?=[,({ ])"


def names_of(sources):
    """The names of each type's functions and variants."""
    names = {}
    for source in sources:
        owner = ""
        for found in re.finditer(rf"{TYPE}|^\}}|{MEMBER}", source.replace("->", "→"), re.M):
            of, declared, function, variant = found.groups()
            owner = "" if found[0] == "}" else of or declared or owner
            names.setdefault(owner, set()).add(function or variant)
    return names
