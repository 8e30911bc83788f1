"""The calls of the C interface, each as a list of plain types, what it gives first, read from every place that declares them: the header, the
crate, the Rust and the Python example. A pointer is a type with * behind it; a slice of the crate is a pointer and a count."""
import ctypes
import importlib.util
import re

C_TYPES = {'size_t': 'size', 'int32_t': 'i32', 'uint32_t': 'u32', 'uint8_t': 'u8', 'double': 'f64'}
RUST_TYPES = {'usize': 'size', 'i32': 'i32', 'u32': 'u32', 'u8': 'u8', 'f64': 'f64'}
CTYPES = {ctypes.c_size_t: 'size', ctypes.c_int32: 'i32', ctypes.c_uint32: 'u32', ctypes.c_uint8: 'u8', ctypes.c_double: 'f64'}


def c_type(words):
    """`const int32_t box[4]`, `double *rows`, `size_t n` as a plain type."""
    found = re.fullmatch(r'(?:const )?(\w+) (\*?)\w+(\[\d+\])?', words.strip())
    return C_TYPES[found.group(1)] + ('*' if found.group(2) or found.group(3) else '')


def of_header(text):
    """{name: [gives, takes..]} of watered.h."""
    code = re.sub(r'/\*.*?\*/', '', text, flags=re.S)
    found = re.findall(r'^(\w+) (watered_\w+)\(([^)]*)\);', code, re.M)
    return {name: [C_TYPES[gives]] + [c_type(words) for words in takes.split(',')] for gives, name, takes in found}


def rattle_types(words):
    """`presence: &mut [u8]` as a pointer and a count, `sides: &[i32; 4]` as a pointer."""
    found = re.fullmatch(r'\w+: (?:(\w+)|&(?:mut )?(?:(\w+)|\[(\w+)(; \d+)?\]))', words.strip())
    plain, one, of_slice, fixed = found.groups()
    if plain:
        return [RUST_TYPES[plain]]
    return [RUST_TYPES[one or of_slice] + '*'] + ([] if one or fixed else ['size'])


def of_crate(text):
    """{name: [gives, takes..]} of the exported functions of a file of crate watered_c."""
    found = re.findall(r'^pub extern "C" fn (watered_\w+)\(([^)]*)\) -> (\w+)', text, re.M)
    split = lambda takes: [words for words in re.split(r',\s*(?=\w+:|$)', takes.strip()) if words]
    return {name: [RUST_TYPES[gives]] + [one for words in split(takes) for one in rattle_types(words)] for name, takes, gives in found}


def of_rust(text):
    """{name: [gives, takes..]} of an extern block in Rust."""
    found = re.findall(r'pub fn (watered_\w+)\(([^)]*)\) -> (\w+);', text)
    plain = lambda words: re.sub(r'^\*(?:const|mut) (\w+)$', lambda one: RUST_TYPES[one.group(1)] + '*', words.split(': ')[1].strip())
    return {name: [RUST_TYPES[gives]] + [RUST_TYPES.get(plain(one), plain(one)) for one in takes.split(',')] for name, takes, gives in found}


def refusals_of_header(text):
    """The refusals that watered.h names, {number: name}."""
    named = {int(number): name for name, number in re.findall(r'^#define (WATERED_[A-Z_]+) (\d+)$', text, re.M)}
    return {number: name for number, name in named.items() if name != 'WATERED_HEADS' and number}


def refusals_of_calls(text):
    """{call: the refusals that the comment before it lists} of watered.h, for those that list some."""
    found = re.findall(r"(?:Refusals|the refusal's number \() ?([\d, ]+)(?:(?!\*/).)*\*/\n\w+ (watered_\w+)\(", text, re.S)
    return {name: {int(number) for number in re.findall(r'\d+', listed)} for listed, name in found}


def section(text, title):
    """What stands below a heading of a document, up to the next."""
    return text.split('\n## %s\n' % title)[1].split('\n## ')[0]


def refusals_of_scope(text):
    """The numbers of docs/SCOPE.md's table of refusals, the third column."""
    return {int(number) for number in re.findall(r'^\|[^|]+\|[^|]+\| (\d+) \|[^|]+\|$', section(text, 'Refusals'), re.M)}


def refusals_of_readme(text):
    """The numbers of README's table of refusals, the first column."""
    return {int(number) for number in re.findall(r'^\| (\d+) \|', section(text, 'What is taken, and what is refused'), re.M)}


def plain_ctype(kind):
    return CTYPES[kind] if kind in CTYPES else CTYPES[kind._type_] + '*'


def of_python(path, library):
    """{name: [gives, takes..]} of the types that window.py sets on the library it has loaded."""
    spec = importlib.util.spec_from_file_location('window', path)
    window = importlib.util.module_from_spec(spec)
    spec.loader.exec_module(window)
    loaded = window.load(library)
    calls = {name: getattr(loaded, name) for name in vars(loaded) if name.startswith('watered_')}
    return {name: [plain_ctype(kind) for kind in [call.restype] + list(call.argtypes)] for name, call in calls.items()}
