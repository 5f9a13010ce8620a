"""Which functions another crate can name: `pub fn` in src/lib.rt, in a module that is `pub`, or in one that src/lib.rt takes
the function from by `pub use`."""
import pathlib
import re

ROOT = pathlib.Path(__file__).resolve().parent.parent


def crates():
    return sorted(p for p in (ROOT / "crates").iterdir() if p.is_dir())


def public_in(sources):
    """Function, file, and the text from its `pub fn` to its body, for each of a crate. `sources` has the text of each file of
    its src/, by the file's name."""
    library = sources.get("lib.rt", "")
    open_modules = set(re.findall(r"^pub mod (\w+)", library, re.M))
    brought = re.findall(r"^pub use (?:self::)?(\w+)::(\w+|\{[^}]*\});", library, re.M)
    taken = {(module, name) for module, names in brought for name in re.findall(r"\w+", names)}
    for file, text in sorted(sources.items()) if library else ():
        module = pathlib.PurePath(file).stem
        for found in re.finditer(r'^ *pub (?:extern "C" )?fn (\w+)(.*?)(?:^ *\{|\{$)', text, re.M | re.S):
            function = found.group(1)
            if file == "lib.rt" or module in open_modules or (module, function) in taken:
                yield function, file, found.group(2)


def public_functions():
    """Crate, function, file, and the text from its `pub fn` to its body, for each."""
    for crate in crates():
        for function, file, head in public_in({path.name: path.read_text() for path in crate.glob("src/*.rt")}):
            yield crate.name, function, (crate / "src" / file).relative_to(ROOT), head
