"""Holds include/cupdaisy.h to the library's exports."""
import re

from cupdaisy.workspace import TOP

NUMBERS = {"u8": "uint8_t", "u16": "uint16_t", "u32": "uint32_t", "u64": "uint64_t", "usize": "size_t",
           "i8": "int8_t", "i32": "int32_t", "bool": "bool"}
# A struct of the library, and the type of the header that it is.
STRUCTS = {"Handle": "cupdaisy_session", "EditReceipt": "cupdaisy_receipt", "UnitOutcome": "cupdaisy_outcome",
           "UnitDoubt": "cupdaisy_doubt", "LeftOutBytes": "cupdaisy_left_out",
           "JobTaken": "cupdaisy_job", "JobInput": "cupdaisy_job_input",
           "SliceRequest": "cupdaisy_request", "PictureRequest": "cupdaisy_frame", "JobReference": "cupdaisy_reference",
           "JournalEdit": "cupdaisy_journal_edit", "GivenEdit": "cupdaisy_edit",
           "EditsReceipt": "cupdaisy_group_receipt", "LoadReceipt": "cupdaisy_load_receipt",
           "SpsLayout": "struct v4l2_ctrl_h264_sps", "PpsLayout": "struct v4l2_ctrl_h264_pps",
           "ScalingMatrixLayout": "struct v4l2_ctrl_h264_scaling_matrix",
           "PredWeightsLayout": "struct v4l2_ctrl_h264_pred_weights",
           "SliceParamsLayout": "struct v4l2_ctrl_h264_slice_params",
           "DecodeParamsLayout": "struct v4l2_ctrl_h264_decode_params"}


def c_type(rust):
    """The type of the header for one that crosses, but for slices."""
    rust = rust.strip()
    if rust in NUMBERS:
        return NUMBERS[rust]
    if rust in STRUCTS:
        return STRUCTS[rust]
    return "?" + rust


def parameters(text):
    """The parameters of the header for those of an export: (type, name) each."""
    made = []
    for part in filter(None, (part.strip() for part in re.split(r",(?![^\[]*\])", text))):
        name, rust = (word.strip() for word in part.split(":", 1))
        if rust == "Global":
            continue
        if array := re.fullmatch(r"&mut \[(\w+); (\d+)\]", rust):
            made.append((c_type(array[1]), f"{name}[{array[2]}]"))
        elif items := re.fullmatch(r"&(mut )?\[(\w+)\]", rust):
            made.append((("" if items[1] else "const ") + c_type(items[2]) + " *", name))
            made.append(("size_t", name + "_length"))
        elif one := re.fullmatch(r"&mut (\w+)", rust):
            made.append((c_type(one[1]) + " *", name))
        else:
            made.append((c_type(rust), name))
    return made


def exports():
    """The exports by name: the type of the result and the parameters."""
    found = {}
    for path in sorted((TOP / "crates/cupdaisy/src").glob("*.rt")):
        for name, inside, result in re.findall(
                r'pub extern "C" fn (\w+)\(([^)]*)\)(?: -> (\w+))?', path.read_text()):
            found[name] = (c_type(result) if result else "void", parameters(inside))
    return found


def prototypes(header):
    """The prototypes of the header, in the same form."""
    found = {}
    for result, name, inside in re.findall(r"^([a-z]\w+) (cupdaisy_\w+)\(([^;]*)\);", header, re.MULTILINE):
        made = []
        for part in inside.split(","):
            whole = re.fullmatch(r"\s*(.*?)(\w+(?:\[\d+\])?)\s*", part, re.DOTALL)
            kind = " ".join(whole[1].split())
            if kind or whole[2] != "void":
                made.append((kind, whole[2]))
        found[name] = (result, made)
    return found


def constants(header):
    """The numbers that the header gives, by their names without the prefix."""
    return {name: int(value) for name, value in re.findall(r"^#define CUPDAISY_(\w+) (\d+)", header, re.MULTILINE)}


def library_constants():
    """The numbers of statuses and kinds in the library."""
    found = {}
    for path in (TOP / "crates/c_calls/src").rglob("*.rt"):
        for name, value in re.findall(r"^pub const (\w+): u32 = (\d+);", path.read_text(), re.MULTILINE):
            found[name.removeprefix("KIND_")] = int(value)
    return found


def structs():
    """The members of the library's structs that cross, by the header's names: (type, name) each."""
    found = {}
    for path in (TOP / "crates/c_calls/src").rglob("*.rt"):
        for name, inside in re.findall(r"#\[repr\(C\)\]\n(?:#\[[^\n]*\]\n)*pub struct (\w+) \{\n(.*?)\n\}", path.read_text(),
                                       re.DOTALL):
            if name in STRUCTS and name != "Handle":
                members = re.findall(r"^    pub (\w+): (.*),$", inside, re.MULTILINE)
                found[STRUCTS[name]] = [
                    (c_type(array[1]), f"{member}[{array[2]}]") if (array := re.fullmatch(r"\[(\w+); (\d+)\]", rust))
                    else (c_type(rust), member) for member, rust in members]
    return found


def header_structs(header):
    """The members of the header's structs."""
    return {name: re.findall(r"^    ((?:struct )?\w+) (\w+(?:\[\d+\])?);", inside, re.MULTILINE)
            for inside, name in re.findall(r"typedef struct \w+ \{\n(.*?)\n\} (\w+);", header, re.DOTALL)}


def versions():
    """The version as the library tells it, as text and as a number, and as the Makefile has it."""
    naming = (TOP / "crates/c_calls/src/naming.rt").read_text()
    text = re.search(r'fill\("([\d.]+)"\.as_bytes\(\)', naming)[1]
    number = int(re.search(r"^pub fn version\(\).*?^    ([\d_]+)$", naming, re.MULTILINE | re.DOTALL)[1])
    made = re.search(r"^VERSION = (.*)$", (TOP / "Makefile").read_text(), re.MULTILINE)[1]
    major, minor, patch = map(int, made.split("."))
    return {"text": text, "number": number}, {"text": made, "number": 1_000_000 * major + 1_000 * minor + patch}


def unnamed(header):
    """The calls of the header that a page which lists them doesn't name, a line each."""
    for page, form in (("man/cupdaisy.3", "cupdaisy_{}"), ("docs/C.md", "`{}`")):
        text = (TOP / page).read_text()
        for name in prototypes(header):
            word = form.format(name.removeprefix("cupdaisy_"))
            if not re.search(rf"(?<!\w){word}(?!\w)", text):
                yield f"{page} doesn't name {name}"


def compare(what, library, header):
    """The differences of the library's table and the other, a line each."""
    for name in sorted(library.keys() | header.keys()):
        if library.get(name) != header.get(name):
            yield f"{what} {name}: the library has {library.get(name)}, the header {header.get(name)}"


def main():
    header = (TOP / "include/cupdaisy.h").read_text()
    lines = list(compare("function", exports(), prototypes(header)))
    lines += compare("constant", library_constants(), constants(header))
    known = header_structs(header)
    known.pop("cupdaisy_session", None)
    lines += compare("struct", structs(), known)
    lines += compare("version", *versions())
    lines += unnamed(header)
    print("\n".join(lines), end="\n" if lines else "")
    return 1 if lines else 0
