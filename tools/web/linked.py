"""Whether the page's modules have all the names that they take from one another."""
import posixpath
import re

_TAKEN = re.compile(r'^import \{([^}]*)\} from "(\.[^"]*)";', re.M)
_WHOLE = re.compile(r'^import \* as (\w+) from "(\.[^"]*)";', re.M)
_PASSED_ON = re.compile(r'^export \* from "(\.[^"]*)";', re.M)
_MADE = re.compile(r"^export (?:async )?(?:class|const|function\*?) (\w+|\[[^\]]*\])", re.M)
_LISTED = re.compile(r"^export \{([^}]*)\}", re.M)


def _names(listed, place):
    """The names of a list in braces or brackets: of `one as other` the first or the last."""
    return {name.split(" as ")[place].strip() for name in listed.split(",") if name.strip()}


def _exported(modules, path):
    text = modules.get(path, "")
    found = set().union(*(_names(made.strip("[]"), 0) for made in _MADE.findall(text)))
    found.update(*(_names(listed, -1) for listed in _LISTED.findall(text)))
    return found.union(*(_exported(modules, _from(path, other)) for other in _PASSED_ON.findall(text)))


def _from(path, other):
    return posixpath.normpath(posixpath.join(posixpath.dirname(path), other))


def _taken(text):
    """The names that a module takes, each with where from."""
    for listed, other in _TAKEN.findall(text):
        yield from ((name, other) for name in sorted(_names(listed, 0)))
    for alias, other in _WHOLE.findall(text):
        yield from ((name, other) for name in sorted(set(re.findall(rf"(?<![\w.$/]){alias}\.(\w+)", text))))


def missing(modules):
    """A sentence for each name that a module takes and another doesn't have; the modules are texts by their paths."""
    exported = {path: _exported(modules, path) for path in modules}
    for path, text in sorted(modules.items()):
        for name, other in _taken(text):
            if name not in exported.get(_from(path, other), ()):
                yield f"{path} takes {name} from {_from(path, other)}, which has no such name"
