"""constants.py: the constants of include/plush.h and of bindings/rust are those of crates/ast, all of them and no others; the sizes and the
first words of a session are those of crates/session; and the lines of C and Rust in README.md stand in the examples. Exit status 1 if
not."""
import re
import sys
from pathlib import Path

TOP = Path(__file__).resolve().parents[2]
MODULES = ["column", "kind", "flag", "name", "code", "question", "limit"]
# What the code runs with of these modules: an enum. The constants beside it are to be its numbers.
ENUMS = {"kind": "Kind", "code": "Code", "question": "Question"}
# Not in crates/ast: the layout of the report, of rows and of places, which edges.c tries; the size and the first words of a session, which
# of_sessions() asks for.
OWN = ("PLUSH_REPORT_", "PLUSH_ROW_WORDS", "PLUSH_ANSWER_WORDS", "PLUSH_SESSION_", "PLUSH_PLACE_")


def text(path):
    return (TOP / path).read_text()


def of_code():
    """(module, name) to value. The classes that are there without being declared are the module class."""
    found = {}
    for module in MODULES:
        source = text(f"crates/ast/src/{module}.rt")
        numbers = variants(source, ENUMS[module]) if module in ENUMS else constants(source)
        found.update({(module, name): value for name, value in numbers.items()})
    for name, value in re.findall(r"pub const (\w+)_ID: ClassId = ClassId\((\d+)\);", text("crates/ast/src/lib.rt")):
        found["class", name] = int(value)
    found["class", "FIRST"] = int(re.search(r"pub const FIRST_CLASS: u32 = (\d+);", text("crates/ast/src/lib.rt"))[1])
    return found


def of_header():
    found = {}
    for name, value in re.findall(r"\b(PLUSH_\w+) = (\d+)", text("include/plush.h")):
        if not name.startswith(OWN):
            module, rest = name.removeprefix("PLUSH_").split("_", 1)
            found[module.lower(), rest] = int(value)
    return found


def upper(camel):
    return re.sub(r"(?<!^)(?=[A-Z])", "_", camel).upper()


def constants(source):
    return {name: int(value) for name, value in re.findall(r"pub const (\w+): \w+ = (\d+);", source)}


def variants(source, enum):
    body = re.search(rf"pub enum {enum} {{(.*?)\n}}", source, re.S)[1]
    return {upper(name): int(value) for name, value in re.findall(r"(\w+) = (\d+),", body)}


def of_rust():
    kinds, lib = text("bindings/rust/src/kinds.rs"), text("bindings/rust/src/lib.rs")
    modules = {name: constants(body) for name, body in re.findall(r"pub mod (\w+) {(.*?)\n}", kinds, re.S)}
    modules["kind"] = variants(kinds, "Kind")
    modules["question"] = variants(text("bindings/rust/src/questions.rs"), "Question")
    modules["code"] = constants(re.search(r"\nmod code {(.*?)\n}", lib, re.S)[1])
    modules["column"] = constants(text("bindings/rust/src/columns.rs"))
    modules["limit"] = constants(text("bindings/rust/src/limits.rs"))
    return {(module, name): value for module, names in modules.items() for name, value in names.items()}


def beside_enums():
    """The constants of crates/ast that stand beside an enum, each against its variant."""
    for module, enum in ENUMS.items():
        source = text(f"crates/ast/src/{module}.rt")
        numbers = variants(source, enum)
        for name, value in constants(source).items():
            if numbers.get(name) != value:
                yield f"crates/ast: {module}::{name} is {value}, the variant of {enum} {numbers.get(name)}"


def differences(what, found, expected):
    for key in sorted(found.keys() | expected.keys()):
        if found.get(key) != expected.get(key):
            yield f"{what}: {'::'.join(key)} is {found.get(key)}, in the code {expected.get(key)}"


def of_layout():
    """The numbers of crates/session/src/layout.rt, which are told by each other and by crates/ast."""
    known = {module: constants(text(f"crates/ast/src/{module}.rt")) for module in ("limit", "name")}
    found = {}
    for name, value in re.findall(r"pub const (\w+): usize = ([\w :+*]+);", text("crates/session/src/layout.rt")):
        found[name] = eval(re.sub(r"(limit|name)::(\w+)", lambda match: str(known[match[1]][match[2]]), value), {}, found)
    return found


def of_sessions():
    """The words and bytes of a session, and its first eight words."""
    layout, rust = of_layout(), constants(text("bindings/rust/src/session.rs"))
    counts = ["GLOBALS", "ENTRIES", "SHOWN", "NAMES", "NAME_BYTES", "DECLARATIONS", "CLASSES", "MEMBERS"]
    header = {name: int(value) for name, value in re.findall(r"\bPLUSH_SESSION_(\w+) = (\d+)", text("include/plush.h"))}
    for name in sorted(header.keys() | {"WORDS", "BYTES", *counts}):
        if header.get(name) != layout.get(name):
            yield f"a session's {name.lower()}: {header.get(name)} in plush.h, {layout.get(name)} in crates/session"
    for name in ("WORDS", "BYTES"):
        if rust[f"SESSION_{name}"] != layout[name]:
            yield f"a session's {name.lower()}: {rust[f'SESSION_{name}']} in bindings/rust, {layout[name]} in crates/session"


def readme_lines():
    """Lines of README's fenced C and Rust, and the example each must stand in."""
    for language, code in re.findall(r"```(c|rust)\n(.*?)```", text("README.md"), re.S):
        path = {"c": "examples/c/resolve.c", "rust": "bindings/rust/examples/resolve.rs"}[language]
        lines = [line.strip() for line in text(path).splitlines()]
        wanted = [line.strip() for line in code.splitlines() if line.strip()]
        starts = [i for i in range(len(lines)) if lines[i:i + len(wanted)] == wanted]
        yield len(wanted), None if starts else f"README.md: its lines of {language} do not stand together in {path}"


def main():
    code = of_code()
    wrong = [*differences("plush.h", of_header(), code), *differences("bindings/rust", of_rust(), code)]
    wrong += of_sessions()
    wrong += beside_enums()
    copied = list(readme_lines())
    wrong += [problem for _, problem in copied if problem]
    print(*wrong, sep="\n", end="\n" if wrong else "")
    print(f"constants: {len(code)} in the code, plush.h and the Rust binding; {sum(n for n, _ in copied)} lines of README in the "
          f"examples; {len(wrong)} differences")
    sys.exit(1 if wrong or not copied else 0)


if __name__ == "__main__":
    main()
