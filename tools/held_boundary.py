"""Holds what is not written from tools/boundary.desc to it: the structs and the exported calls of the crates, and the version where it stands
elsewhere. The exports stand in the crate `card_c`, each over the function of `card` of the same name, whose clauses it states again: the two are
held to one another too. tools/gen_boundary.py calls `faults`."""
import glob
import re

NUMBERS = ("u8", "u16", "u32", "usize")
SPACE = re.compile(r"\s+")
# #[repr(C)] and the other attributes of a struct
REPR_C = r"#\[repr\(C\)\](?:\s*#\[[^\]]*\])*\s*"
EXPORTED = r'#\[unsafe\(no_mangle\)\]\s*pub extern "C" '


def read(path):
    with open(path, encoding="utf-8") as file:
        return file.read()


def sources(crate):
    """The code of a crate without its comments."""
    return "\n".join(re.sub(r"//.*", "", read(path)) for path in sorted(glob.glob("crates/%s/src/*.rt" % crate)))


def pairs(text):
    """The names and types of 'a: T, pub b: U,'."""
    fields = re.findall(r"(?:pub )?(\w+): ((?:&mut |&)?(?:\[[^\]]*\]|[\w:]+))", SPACE.sub(" ", text))
    return [(name, kind.split("::")[-1]) for name, kind in fields]


def structs_of(crate):
    """The #[repr(C)] structs of a crate with fields, and those that are a number by another name."""
    code = sources(crate)
    named = {name: pairs(body) for name, body in re.findall(REPR_C + r"pub struct (\w+) \{(.*?)\}", code, re.S)}
    numbers = dict(re.findall(REPR_C + r"pub struct (\w+)\(pub (\w+)\);", code))
    return named, numbers


def calls_of(crate):
    """The exported functions of a crate: parameters and result."""
    head = EXPORTED + r"fn (\w+)\((.*?)\)\s*(?:-> (\w+))?\s*(?:requires|ensures|\{)"
    return {name: (pairs(parameters), result or None) for name, parameters, result in re.findall(head, sources(crate), re.S)}


def contracts(crate, before):
    """What stands between a function's name and its body, parameters and clauses: of each public function with that text before `fn`."""
    return {name: SPACE.sub(" ", told) for name, told in re.findall(before + r"fn (\w+)(.*?)\n\{\n", sources(crate), re.S)}


class Crates:
    """The sources beside a description, both in the description's words."""

    def __init__(self, described):
        self.described = described
        self.in_c = {rattle: name for name, (_, rattle), _ in described["structs"]}
        self.named, self.numbers = {}, {}
        for crate in sorted(path.split("/")[1] for path in glob.glob("crates/*/src")):
            named, numbers = structs_of(crate)
            self.named.update({(crate, name): fields for name, fields in named.items()})
            self.numbers.update(numbers)

    def kind(self, told):
        """A type of Rattle as the description has it."""
        slices = {"&[u8]": "in", "&mut [u8]": "out"}
        if told in slices:
            return slices[told]
        for sign, word in (("&mut ", "mut "), ("&", "const ")):
            if told.startswith(sign):
                return word + self.kind(told[len(sign):])
        array = re.fullmatch(r"\[u8; (\d+)\]", told)
        if array:
            return "u8[%s]" % array.group(1)
        told = self.numbers.get(told, told)
        return told if told in NUMBERS else self.in_c.get(told, told)

    def kinds(self, fields):
        return [(name, self.kind(told)) for name, told in fields]

    def faults_of_structs(self):
        wanted = {origin: (name, fields) for name, origin, fields in self.described["structs"]}
        for origin, (name, fields) in wanted.items():
            if origin not in self.named:
                yield "%s::%s, which is struct delampuk_%s, is not there with #[repr(C)]" % (*origin, name)
            elif self.kinds(self.named[origin]) != fields:
                yield "%s::%s has other fields than struct delampuk_%s: %s" % (*origin, name, self.kinds(self.named[origin]))
        for origin in sorted(self.named.keys() - wanted.keys()):
            yield "%s::%s crosses to C (#[repr(C)]), but is not described" % origin

    def faults_of_calls(self):
        there = calls_of("card_c")
        wanted = {"delampuk_" + name: (parameters, result) for name, parameters, result in self.described["calls"]}
        for name, (parameters, result) in wanted.items():
            if name not in there:
                yield "card_c::%s is not there" % name
                continue
            told, gives = there[name]
            if self.kinds(told) != parameters:
                yield "card_c::%s has other parameters than are described: %s" % (name, self.kinds(told))
            if (gives and self.kind(gives)) != result:
                yield "card_c::%s gives %s, and not %s" % (name, gives, result)
        for name in sorted(there.keys() - wanted.keys()):
            yield "card_c::%s is exported, but not described" % name


def faults_of_exports():
    """Each export has the parameters and the clauses of the function of `card` that it calls."""
    below, exported = contracts("card", r"\bpub "), contracts("card_c", EXPORTED)
    for name in sorted(below.keys() | exported.keys()):
        if name not in below or name not in exported:
            yield "%s is not in both of card and card_c" % name
        elif below[name] != exported[name]:
            yield "card_c::%s has other parameters or clauses than card::%s" % (name, name)


def versions():
    """Where a version stands beside the description, and which it is."""
    heading = re.search(r"^## (\S+)", read("CHANGELOG.md"), re.M)
    yield "CHANGELOG.md's first heading", heading and heading.group(1)
    yield "VERSION", read("VERSION").strip()
    for path in ["rust/Cargo.toml"] + sorted(glob.glob("rust/*/Cargo.toml")):
        for told in re.findall(r'^version = "(.*)"', read(path), re.M):
            yield path, told


def faults(described):
    crates = Crates(described)
    yield from crates.faults_of_structs()
    yield from crates.faults_of_calls()
    yield from faults_of_exports()
    for place, version in versions():
        if version != described["version"]:
            yield "%s has version %s, and not %s" % (place, version, described["version"])
