"""agree.py TOP: jffs2.h, the exports of crates/jffs2_c, the rows of crates/jcalls, bindings/rust and bindings/python name
the same calls, with the same parameters in the same order, and the same structs, with the same fields."""

import ctypes
import re
import sys

TOP = sys.argv[1]
PLAIN = {"u32": "uint32_t", "u64": "uint64_t", "bool": "_Bool", "*mut u8": "void *"}
# what each struct is called: in jffs2.h, in Rattle, in Rust, in Python
STRUCTS = {
    "jffs2_how": ("How", "How", "_How"),
    "jffs2_fault": ("Fault", "Fault", "_Fault"),
    "jffs2_counted": ("Counted", "Counts", "_Counted"),
    "jffs2_stat_row": ("Stat", "Stat", "_Stat"),
    "jffs2_entry": ("Entry", "Entry", "_Entry"),
    "jffs2_needed": ("Needed", "Needed", "_Needed"),
    "jffs2_request": ("Request", "Request", "_Request"),
    "jffs2_finding_row": ("FindingRow", "Finding", "_Finding"),
    "jffs2_node_row": ("NodeRow", "Node", "_Node"),
    "jffs2_info_row": ("InfoRow", "InfoRow", "_InfoRow"),
    "jffs2_target": ("Target", "Target", "_Target"),
    "jffs2_file": ("FileRow", "FileRow", "_FileRow"),
    "jffs2_written": ("Written", "Written", "_Written"),
    "jffs2_handle": ("Handle", "Handle", "_Handle"),
}
# the modules of crates/jcalls that have them
ROWS_IN = [f"jcalls/src/{it}" for it in ("how", "told", "rows", "finding_row", "node_row", "given", "working", "appending")]
ROWS_IN.append("jheld/src/held")
RATTLE = {rattle: header for header, (rattle, _, _) in STRUCTS.items()}
RUST = {rust: header for header, (_, rust, _) in STRUCTS.items()}


def text_of(*paths):
    text = ""
    for path in paths:
        with open(f"{TOP}/{path}", encoding="utf-8") as file:
            text += file.read()
    return re.sub(r"/\*.*?\*/|//[^\n]*", "", text, flags=re.S)


def header_structs(text):
    found = {}
    for body, name in re.findall(r"typedef struct \w+ \{(.*?)\} (\w+);", text, re.S):
        found[name] = [(field, kind.strip()) for kind, field in re.findall(r"(void \*|\w+ )(\w+);", body)]
    return found


def rust_structs(text, names):
    found = {}
    for name, body in re.findall(r"#\[repr\(C\)\]\s*#\[derive.*?\]\s*pub struct (\w+) \{(.*?)\n\}", text, re.S):
        if name not in names:
            continue
        fields = []
        for field, kind in re.findall(r"pub(?:\(crate\))? (\w+): ([^,\n]+),", body):
            kind = names.get(kind.split("::")[-1], PLAIN.get(kind, kind))
            array = re.match(r"\[u64; (\d+)\]", kind)
            fields += [(f"{field}_{i}", "uint64_t") for i in range(int(array[1]))] if array else [(field, kind)]
        found[names[name]] = fields
    return found


def parts(text):
    """The parameters of a list."""
    return [it.strip() for it in text.split(",") if it.strip()]


def header_calls(text):
    found = {}
    for name, listed in re.findall(r"uint32_t (jffs2_\w+)\((.*?)\);", text, re.S):
        kinds = []
        for it in parts(listed):
            kind, star, _ = re.match(r"(.*?)\s*(\*?)\s*(\w+)$", it).groups()
            kinds.append(kind + star)
        found[name] = kinds
    return found


def rattle_kinds(kind):
    """What a parameter of an export is in C."""
    lent = re.match(r"&(?:'static )?(mut )?(.*)", kind)
    if kind == "Global":
        return []
    if not lent:
        return [{"u32": "uint32_t", "u64": "uint64_t"}[kind]]
    const, inner = "" if lent[1] else "const ", lent[2]
    many = re.match(r"\[(\w+)\]", inner)
    inner = many[1] if many else inner
    word = {"u8": "uint8_t", "u32": "uint32_t", "usize": "size_t"}.get(inner) or RATTLE[inner]
    return [f"{const}{word}*", *(["size_t"] if many else [])]


def rattle_calls(text):
    found = {}
    for name, listed in re.findall(r'extern "C" fn (jffs2_\w+)\((.*?)\) -> u32', text, re.S):
        found[name] = [kind for it in parts(listed) for kind in rattle_kinds(it.split(": ")[1])]
    return found


def rust_calls(text):
    found = {}
    words = {"u8": "uint8_t", "usize": "size_t", "u32": "uint32_t", "u64": "uint64_t"}
    for name, listed in re.findall(r"pub fn (jffs2_\w+)\((.*?)\) -> u32;", text, re.S):
        kinds = []
        for it in parts(listed):
            pointer, kind = re.match(r"\w+: (\*const |\*mut )?(?:crate::)?(\w+)$", it).groups()
            word = words.get(kind) or RUST[kind]
            kinds.append({"*const ": f"const {word}*", "*mut ": f"{word}*", None: word}[pointer])
        found[name] = kinds
    return found


def python_sizes(structs):
    """The module's structs have the sizes and offsets that C gives to those of the header."""
    import jffs2

    for name, (_, _, called) in STRUCTS.items():
        mirror = type(name, (ctypes.Structure,), {"_fields_": [(f, kinds[k]) for f, k in structs[name]]})
        kinds[name] = mirror
        module = getattr(jffs2, called)
        yield name, ctypes.sizeof(mirror), ctypes.sizeof(module)
        yield name, [getattr(mirror, f).offset for f, _ in structs[name]], [getattr(module, f).offset for f, _ in module._fields_]
    for name, taken in jffs2._CALLS.items():
        yield name, len(taken), len(header_calls(text_of("bindings/c/jffs2.h"))[name])


kinds = {"uint32_t": ctypes.c_uint32, "uint64_t": ctypes.c_uint64, "_Bool": ctypes.c_bool, "void *": ctypes.c_void_p}


def main():
    header = text_of("bindings/c/jffs2.h")
    structs, calls = header_structs(header), header_calls(header)
    rattle = text_of(*(f"crates/{it}.rt" for it in ROWS_IN))
    rust = text_of("bindings/rust/src/sys.rs", "bindings/rust/src/lib.rs")
    pairs = [("calls of crates/jffs2_c", rattle_calls(text_of("crates/jffs2_c/src/lib.rt")), calls)]
    pairs += [("calls of bindings/rust", rust_calls(rust), calls)]
    own = {name: fields for name, fields in rust_structs(rattle, RATTLE).items()}
    pairs += [("structs of crates/jcalls", {name: own.get(name) for name in STRUCTS}, structs)]
    found = rust_structs(rust, RUST)
    for name, fields in structs.items():
        pairs.append((f"{name} of bindings/rust", [k for _, k in found.get(name, [])], [k for _, k in fields]))
    pairs += [(f"{name} of bindings/python", here, there) for name, here, there in python_sizes(structs)]
    wrong = [(about, one, other) for about, one, other in pairs if one != other]
    for about, one, other in wrong:
        print(f"{about}:\n  {one}\n  jffs2.h has\n  {other}")
    sys.exit(bool(wrong))


main()
