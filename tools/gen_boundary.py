#!/usr/bin/env python3
"""Writes what stands on the boundary to C out of its description, or checks that all of it agrees. Run at the top of the repository:

    python3 tools/gen_boundary.py write
    python3 tools/gen_boundary.py check

tools/boundary.desc has the version, constants, structs, calls and saved forms; tools/delampuk.h.in has the header's text and what each of them
means; tests/codes.txt is the table of codes, as c/codes.c prints it. Written are the header, the structs and calls of rust/delampuk-sys, the
codec of c/serve.c and docs/SAVED.md. `check` says where one of them is not what is written today, where the description breaks a rule of its own,
and where the sources of the crates or a version elsewhere differ from it (tools/held_boundary.py).

In tools/delampuk.h.in a line that begins with @ is replaced: @version, @codes, @asserts, @family NAME, @call NAME, and @struct NAME, after which
each field stands on a line of its own with its meaning. The first sentence of the comment before a struct or a call is its comment in Rust too."""
import re
import sys

import held_boundary

DESCRIPTION, TEMPLATE, CODES = "tools/boundary.desc", "tools/delampuk.h.in", "tests/codes.txt"
HEADER_WIDTH, RUST_WIDTH = 140, 120
IN_C = {"u8": "uint8_t", "u16": "uint16_t", "u32": "uint32_t", "usize": "size_t"}


def read(path):
    with open(path, encoding="utf-8") as file:
        return file.read()


described = {}
exec(read(DESCRIPTION), described)
VERSION, FAMILIES, CALLS, FORMS = (described[name] for name in ("version", "families", "calls", "forms"))
STRUCTS = {name: fields for name, _, fields in described["structs"]}
TELLS = {family: tells for family, tells, _ in FAMILIES}
MEMBERS = {family: members for family, _, members in FAMILIES}


def version_number(text):
    major, minor, patch = (int(part) for part in text.split("."))
    return 10000 * major + 100 * minor + patch


# ---- kinds of fields: u8, u16, u32, usize, octets as u8[N], or a struct
def array_of(kind):
    """N of u8[N], or None."""
    found = re.fullmatch(r"u8\[(\d+)\]", kind)
    return int(found.group(1)) if found else None


def octets(kind):
    if kind in STRUCTS:
        return sum(octets(k) for _, k in STRUCTS[kind])
    return array_of(kind) or {"u8": 1, "u16": 2, "u32": 4, "usize": 8}[kind]


def offsets(struct):
    """Each field with its kind and the octets before it, since there is no padding."""
    at = 0
    for field, kind in STRUCTS[struct]:
        yield field, kind, at
        at += octets(kind)


def last_form(state):
    return [paths for of, _, paths in FORMS if of == state][-1]


# ---- the template
def directive_of(line):
    return line[1:].split() if line.startswith("@") else None


def sentence_before(lines, at):
    """The first sentence of the comment that ends just before a line, or nothing where there is none."""
    if not lines[at - 1].endswith(" */"):
        return ""
    first = next(i for i in range(at - 1, -1, -1) if lines[i].startswith("/* "))
    text = " ".join(line[3:] for line in lines[first:at])[:-len(" */")]
    return re.match(r".*?\.(?= |$)", text).group(0)


def meaning_lines(lines, at):
    """The lines 'field: meaning' after a line."""
    end = at + 1
    while lines[end].startswith("    "):
        end += 1
    return [line.strip().split(": ", 1) for line in lines[at + 1:end]]


def sections(lines):
    """The template cut up: text as (None, line), and directives as (words, (sentence, meanings))."""
    at = 0
    while at < len(lines):
        words = directive_of(lines[at])
        if words is None:
            yield None, lines[at]
            at += 1
            continue
        meanings = meaning_lines(lines, at) if words[0] == "struct" else []
        sentence = sentence_before(lines, at) if words[0] in ("struct", "call") else ""
        yield words, (sentence, meanings)
        at += 1 + len(meanings)


PARTS = list(sections(read(TEMPLATE).split("\n")[:-1]))
SENTENCES = {(words[0], words[1]): told[0] for words, told in PARTS if words and words[0] in ("struct", "call")}
MEANINGS = {words[1]: told[1] for words, told in PARTS if words and words[0] == "struct"}


def meaning(struct, field):
    return dict(MEANINGS[struct])[field]


# ---- the header
def aligned(rows):
    """Code with a comment each, the comments in one column."""
    width = max(len(code) for code, comment in rows if comment)
    return ["    %s" % (code if not comment else "%s /* %s */" % (code.ljust(width), comment)) for code, comment in rows]


def constant(family, name):
    return "DELAMPUK_%s_%s" % (family, name)


def family_in_c(family):
    tells, members = TELLS[family], MEMBERS[family]
    codes = ["%s = %d" % (constant(family, name), number) for name, number, _ in members]
    if not any(means for _, _, means in members):
        return ["/* %s */" % tells, "enum { %s };" % ", ".join(codes)]
    commas = [","] * (len(codes) - 1) + [""]
    rows = [(code + comma, means) for code, comma, (_, _, means) in zip(codes, commas, members)]
    return ["/* %s */" % tells, "enum {", *aligned(rows), "};"]


def declared_in_c(kind, name):
    if kind in STRUCTS:
        return "struct delampuk_%s %s" % (kind, name)
    if array_of(kind):
        return "uint8_t %s[%d]" % (name, array_of(kind))
    return "%s %s" % (IN_C[kind], name)


def struct_in_c(struct):
    rows = [(declared_in_c(kind, field) + ";", meaning(struct, field)) for field, kind in STRUCTS[struct]]
    return ["struct delampuk_%s {" % struct, *aligned(rows), "};"]


def parameter_in_c(name, kind):
    """One parameter, or two for a buffer."""
    if kind == "in":
        return ["const uint8_t *" + name, "size_t %s_length" % name]
    if kind == "out":
        return ["uint8_t *" + name, "size_t %s_length" % name]
    word, _, struct = kind.partition(" ")
    if word in ("mut", "const"):
        return ["%sstruct delampuk_%s *%s" % ("const " if word == "const" else "", struct, name)]
    return [declared_in_c(kind, name)]


def filled(head, words, width):
    """Words after a head, parted by commas, on lines of that width that begin below the head's end."""
    lines = [head]
    for i, word in enumerate(words):
        word += ", " if i + 1 < len(words) else ");"
        if len(lines[-1]) + len(word.rstrip()) > width:
            lines.append(" " * len(head))
        lines[-1] += word
    return [line.rstrip() for line in lines]


def call_in_c(name):
    _, parameters, result = next(call for call in CALLS if call[0] == name)
    given = declared_in_c(result, "delampuk_" + name) if result else "void delampuk_" + name
    words = [word for p in parameters for word in parameter_in_c(*p)] or ["void"]
    return filled(given + "(", words, HEADER_WIDTH)


def asserts_in_c():
    yield from ("#ifdef __cplusplus", "#define DELAMPUK_ASSERT(holds, what) static_assert(holds, what)", "#else",
                "#define DELAMPUK_ASSERT(holds, what) _Static_assert(holds, what)", "#endif")
    yield 'DELAMPUK_ASSERT(sizeof(size_t) == 8, "size_t");'
    for struct in STRUCTS:
        yield 'DELAMPUK_ASSERT(sizeof(struct delampuk_%s) == %d, "%s");' % (struct, octets(struct), struct)
        for field, _, at in offsets(struct):
            yield 'DELAMPUK_ASSERT(offsetof(struct delampuk_%s, %s) == %d, "%s.%s");' % (struct, field, at, struct, field)
    yield "#undef DELAMPUK_ASSERT"


def codes_in_c():
    return ["/* Every code, as delampuk_explain tells it:", " *", *(" *     " + row for row in read(CODES).split("\n")[:-1]), " */"]


def version_in_c():
    return ["/* The version of this header: 10000 major + 100 minor + patch. */",
            "#define DELAMPUK_VERSION %d" % version_number(VERSION), '#define DELAMPUK_VERSION_TEXT "%s"' % VERSION]


WRITTEN_IN_C = {"version": version_in_c, "family": family_in_c, "struct": struct_in_c, "call": call_in_c, "codes": codes_in_c, "asserts": asserts_in_c}


def header():
    for words, told in PARTS:
        yield from [told] if words is None else WRITTEN_IN_C[words[0]](*words[1:])


# ---- rust/delampuk-sys
def camel(name):
    return "".join(part.capitalize() for part in name.split("_"))


def in_rust(kind):
    word, _, struct = kind.partition(" ")
    if struct:
        return "*%s %s" % (word, camel(struct))
    if kind in STRUCTS:
        return camel(kind)
    return "[u8; %d]" % array_of(kind) if array_of(kind) else kind


def doc(text, indent=""):
    """A comment in Rust, on as many lines as it needs."""
    lines = [indent + "///"]
    for word in text.split():
        if len(lines[-1]) + 1 + len(word) > RUST_WIDTH:
            lines.append(indent + "///")
        lines[-1] += " " + word
    return lines


def sentence(text):
    return text[0].upper() + text[1:] + "."


def without_prefix(text):
    return text.replace("DELAMPUK_", "")


def thousands(number):
    return re.sub(r"(?<=\d)(?=(\d{3})+$)", "_", str(number))


def constants_in_rust():
    yield from doc("The header's version, `DELAMPUK_VERSION`: 10000 major + 100 minor + patch.")
    yield "pub const VERSION: u32 = %s;" % thousands(version_number(VERSION))
    for family, tells, members in FAMILIES:
        kind = "usize" if family == "OCTETS" else "u8"
        yield ""
        yield "// %s" % tells
        for name, number, means in members:
            yield from doc("`%s`%s." % (constant(family, name), means and ": " + means))
            yield "pub const %s_%s: %s = %s;" % (family, name, kind, thousands(number))


def struct_in_rust(struct):
    yield ""
    told = SENTENCES["struct", struct]
    yield from doc("`struct delampuk_%s`: %s" % (struct, told[0].lower() + told[1:]))
    yield from ("#[derive(Clone, Copy, Debug, PartialEq, Eq)]", "#[repr(C)]", "pub struct %s {" % camel(struct))
    for field, kind in STRUCTS[struct]:
        yield from doc(without_prefix(sentence(meaning(struct, field))), "    ")
        yield "    pub %s: %s," % (field, in_rust(kind))
    yield "}"


def parameter_in_rust(name, kind):
    if kind in ("in", "out"):
        return ["%s: *%s u8" % (name, "const" if kind == "in" else "mut"), "%s_length: usize" % name]
    return ["%s: %s" % (name, in_rust(kind))]


def call_in_rust(name, parameters, result):
    yield from doc(without_prefix(SENTENCES["call", name]), "    ")
    words = [word for p in parameters for word in parameter_in_rust(*p)]
    head, tail = "    pub fn delampuk_%s(" % name, ")%s;" % (" -> " + in_rust(result) if result else "")
    whole = head + ", ".join(words) + tail
    if len(whole) <= RUST_WIDTH:
        yield whole
    else:
        yield from (head, *("        %s," % word for word in words), "    " + tail)


def bindings():
    yield from ("//! The structs and calls of `include/delampuk.h`, field for field, and the link to the archive that has them. The header",
                "//! says what each call takes and leaves, and what it asks of pointers; the crate `delampuk` keeps that by slices.",
                "//!", "//! `tools/gen_boundary.py` writes this file out of `tools/boundary.desc`.", "")
    yield from constants_in_rust()
    for struct in STRUCTS:
        yield from struct_in_rust(struct)
    yield from ("", 'extern "C" {')
    for call in CALLS:
        yield from call_in_rust(*call)
    yield from ("}", "", "/// The layout that the library was compiled for. No struct has padding, so its length settles where each field is.",
                "mod layout {", "    use super::*;", "    use core::mem::size_of;", "", "    const _: () = assert!(size_of::<usize>() == 8);")
    for struct in STRUCTS:
        yield "    const _: () = assert!(size_of::<%s>() == %d);" % (camel(struct), octets(struct))
    yield "}"


# ---- c/codec.h
def crossing(struct):
    """A struct's fields in the order in which they cross: numbers of eight octets last, and octets that are reserved not at all."""
    fields = [(f, k) for f, k in STRUCTS[struct] if not (f == "reserved" and octets(k) == (array_of(k) or 1))]
    return sorted(fields, key=lambda field: field[1] == "usize")


def codec_line(verb, field, kind):
    at = "at->" + field
    if kind in STRUCTS:
        return "%s_%s(&%s);" % (verb, kind, at)
    if verb == "give":
        return "give_number(%s, %d);" % (at, octets(kind))
    cast = "" if kind == "usize" else "(%s)" % IN_C[kind]
    return "%s = %stake_number(%d);" % (at, cast, octets(kind))


def codec_of(verb, struct):
    const = "const " if verb == "give" else ""
    yield ""
    yield "static void %s_%s(%sstruct delampuk_%s *at) {" % (verb, struct, const, struct)
    if verb == "take" and len(crossing(struct)) < len(STRUCTS[struct]):
        yield "    memset(at, 0, sizeof *at);"
    for field, kind in crossing(struct):
        yield "    " + codec_line(verb, field, kind)
    yield "}"


def within(structs):
    """Structs and those that they have as fields, in the description's order."""
    found = set(structs)
    for struct in reversed(list(STRUCTS)):
        if struct in found:
            found.update(kind for _, kind in STRUCTS[struct] if kind in STRUCTS)
    return [struct for struct in STRUCTS if struct in found]


def taken():
    """The structs that calls take, by a pointer or by value."""
    words = {kind.split()[-1] for _, parameters, _ in CALLS for _, kind in parameters}
    return words & STRUCTS.keys()


def given():
    """The structs that calls answer, and those that they write."""
    written = {kind.split()[1] for _, parameters, _ in CALLS for _, kind in parameters if kind.startswith("mut ")}
    return written | {result for _, _, result in CALLS} & STRUCTS.keys()


def codec():
    yield from ("/* How structs cross in c/serve.c: field by field, numbers lowest octet first, those of eight octets after all others, and reserved octets",
                " * not at all. tools/gen_boundary.py writes this file out of tools/boundary.desc; c/serve.c has take_number and give_number. */",
                "#ifndef CODEC_H", "#define CODEC_H", "", '#include "delampuk.h"', "", "#include <string.h>", "",
                "static size_t take_number(int octets);", "static void give_number(size_t number, int octets);")
    for struct in within(taken()):
        yield from codec_of("take", struct)
    for struct in within(given()):
        yield from codec_of("give", struct)
    yield from ("", "#endif")


# ---- docs/SAVED.md
def path_octets(path):
    return int(path.partition(":")[2] or 1)


def form_octets(paths):
    return sum(path_octets(path) for path in paths)


def form_told(paths):
    return ", ".join("%s (%s octets, lowest first)" % tuple(path.split(":")) if ":" in path else path for path in paths)


def saved():
    yield from ("# Saved forms", "",
                "`delampuk_save_sender`, `delampuk_save_reader` and `delampuk_save_walk` write a state as octets that can be kept beyond the run of a program, and",
                "`delampuk_load_sender`, `delampuk_load_reader` and `delampuk_load_walk` read them. A form is known by its length. The last form of a state is the one",
                "that is written; every form of this table loads, in this version and in each later one. A field that a form lacks is 0, which means what",
                "the library did then. Any other length is answered DELAMPUK_LOAD_NO_FORM, which is no refusal of document 01, and nothing changes.", "",
                "Any octets of a form's length load. Whether the state is in range is asked by the calls that use it, which refuse it with 1.", "",
                "A form that was written once is never changed: a state that gets a new field gets a new row. `c/check.c` loads stored octets of each.", "",
                "`tools/gen_boundary.py` writes this page out of `tools/boundary.desc`.", "",
                "| state | octets | since | octets in order |", "|---|---|---|---|")
    for state, since, paths in FORMS:
        yield "| %s | %d | %s | %s |" % (state, form_octets(paths), since, form_told(paths))


# ---- rules of the description itself
def leaves(struct, before=""):
    """The path and kind of each number in a struct, but for what is reserved."""
    for field, kind in STRUCTS[struct]:
        if kind in STRUCTS:
            yield from leaves(kind, before + field + ".")
        elif field != "reserved":
            yield before + field, kind


def alignment(kind):
    if kind in STRUCTS:
        return max(alignment(k) for _, k in STRUCTS[kind])
    return 1 if array_of(kind) else octets(kind)


def faults_of_structs():
    for struct in STRUCTS:
        for field, kind, at in offsets(struct):
            if at % alignment(kind):
                yield "struct %s has padding before %s" % (struct, field)
        if octets(struct) % alignment(struct):
            yield "struct %s has padding at its end" % struct
        if [field for field, _ in MEANINGS.get(struct, [])] != [field for field, _ in STRUCTS[struct]]:
            yield "%s has other fields of struct %s than %s" % (TEMPLATE, struct, DESCRIPTION)


def faults_of_calls():
    for name, parameters, result in CALLS:
        for struct in [kind for _, kind in parameters] + [result]:
            if struct in STRUCTS and octets(struct) > 16:
                yield "delampuk_%s hands over struct %s, of %d octets, by value" % (name, struct, octets(struct))


def faults_of_forms():
    for state in dict.fromkeys(state for state, _, _ in FORMS):
        lengths = [form_octets(paths) for of, _, paths in FORMS if of == state]
        if len(set(lengths)) < len(lengths):
            yield "two forms of a %s have the same length" % state
        told = sorted("%s:%d" % (path, octets(kind)) if octets(kind) > 1 else path for path, kind in leaves(state))
        if sorted(last_form(state)) != told:
            yield "the last form of a %s has other fields than its struct" % state
        name = "SAVED_" + state.upper()
        if (name, lengths[-1]) not in [member[:2] for member in MEMBERS["OCTETS"]]:
            yield "%s is not %d, the octets of the last form" % (constant("OCTETS", name), lengths[-1])


def faults_of_template():
    asked = [tuple(words) for words, _ in PARTS if words]
    wanted = [("family", f[0]) for f in FAMILIES] + [("struct", s) for s in STRUCTS] + [("call", c[0]) for c in CALLS]
    for words in wanted + [("version",), ("codes",), ("asserts",)]:
        if asked.count(words) != 1:
            yield "%s has @%s %d times" % (TEMPLATE, " ".join(words), asked.count(words))
    for words in [words for words, text in SENTENCES.items() if text == ""]:
        yield "%s has no comment just before @%s" % (TEMPLATE, " ".join(words))


def faults_of_sizes():
    """The sizes of states that the library tells of itself."""
    library = "library = record { version = %d; sender = %d; reader = %d; walk = %d; reserved = 0 }"
    if library % (version_number(VERSION), octets("sender"), octets("reader"), octets("walk")) not in read("crates/asking/specs/Asked.antt"):
        yield "crates/asking/specs/Asked.antt tells another version or other sizes of the library"


def rules():
    yield from faults_of_template()
    yield from faults_of_structs()
    yield from faults_of_calls()
    yield from faults_of_forms()
    yield from faults_of_sizes()


FILES = {"include/delampuk.h": header, "rust/delampuk-sys/src/lib.rs": bindings, "c/codec.h": codec, "docs/SAVED.md": saved}


def text_of(lines):
    return "\n".join(lines()) + "\n"


def stale():
    for path, lines in FILES.items():
        if read(path) != text_of(lines):
            yield "%s is not what tools/gen_boundary.py writes" % path


def told(faults):
    for fault in faults:
        print(fault)
    return len(faults) > 0


def check():
    broken, held = list(rules()), list(held_boundary.faults(described))
    return told(broken + held + ([] if broken else list(stale())))


def write():
    if told(list(rules())):
        return True
    texts = {path: text_of(lines) for path, lines in FILES.items()}
    for path, text in texts.items():
        with open(path, "w", encoding="utf-8") as file:
            file.write(text)
    return False


if __name__ == "__main__":
    sys.exit({"check": check, "write": write}[sys.argv[1]]())
