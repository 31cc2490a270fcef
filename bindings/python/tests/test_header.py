"""The header and `khuyurek.raw` say the same: functions, parameters, structs down to the place of
every field, numbers; and the shared library has these functions and no other name."""

import ctypes
import re
import shutil
import subprocess
import tempfile
import unittest
from pathlib import Path

from khuyurek import raw

ROOT = Path(__file__).resolve().parents[3]
HEADER = ROOT / "include" / "khuyurek.h"

PLAIN = {
    "size_t": ctypes.c_size_t,
    "uint8_t": ctypes.c_uint8,
    "uint16_t": ctypes.c_uint16,
    "uint32_t": ctypes.c_uint32,
    "uint64_t": ctypes.c_uint64,
    "int32_t": ctypes.c_int32,
}
POINTERS = {
    "const uint8_t": raw.const_uint8_p,
    "const uint16_t": raw.const_uint16_p,
    "const uint32_t": raw.const_uint32_p,
    "uint8_t": raw.uint8_p,
    "uint16_t": raw.uint16_p,
    "uint32_t": raw.uint32_p,
}


def text_of_header():
    text = HEADER.read_text()
    return re.sub(r"/\*.*?\*/", " ", text, flags=re.S)


def numbers_of(text):
    found = re.findall(r"^#define (KHUYUREK_\w+) (\w+)$", text, flags=re.M)
    return {name: int(value.rstrip("u"), 0) for name, value in found}


def structs_of(text):
    """Every struct with its fields, each a name, a type and a count or None."""
    structs = {}
    for body, name in re.findall(r"typedef struct \{(.*?)\} (\w+);", text, flags=re.S):
        fields = []
        for declaration in filter(None, map(str.strip, body.split(";"))):
            of, names = declaration.split(None, 1)
            for field in map(str.strip, names.split(",")):
                field, count = re.fullmatch(r"(\w+)(?:\[(\d+)\])?", field).groups()
                fields.append((field, of, count and int(count)))
        structs[name] = fields
    return structs


def functions_of(text):
    """Every function with its answer and the types of its parameters."""
    text = re.sub(r"typedef struct \{.*?\} \w+;", " ", text, flags=re.S)
    text = re.sub(r"^#.*$", " ", text, flags=re.M)
    found = re.findall(r"([\w ]+?[ *]+)(khuyurek_\w+)\(([^)]*)\);", text)
    return {
        name: (answer.strip(), [" ".join(one.split()) for one in parameters.split(",")])
        for answer, name, parameters in found
    }


def ctype(name):
    return PLAIN[name] if name in PLAIN else getattr(raw, name)


def parameter_type(parameter):
    pointer = re.fullmatch(r"(.*?) ?\*(\w+)", parameter)
    if pointer:
        return POINTERS[pointer.group(1)]
    return ctype(parameter.rsplit(" ", 1)[0])


class Header(unittest.TestCase):
    def setUp(self):
        self.text = text_of_header()

    def test_functions(self):
        functions = functions_of(self.text)
        self.assertGreater(len(functions), 50)
        self.assertEqual(self.text.count("khuyurek_aco_judge("), 1)
        self.assertEqual(sorted(functions), sorted(raw.FUNCTIONS))
        for name, (answer, parameters) in functions.items():
            declared_answer, declared = raw.FUNCTIONS[name]
            self.assertIs(declared_answer, ctype(answer), name)
            self.assertEqual([parameter_type(one) for one in parameters], list(declared), name)
            for calls in (raw.calls, raw.held):
                function = getattr(calls, name)
                self.assertIs(function.restype, declared_answer)
                self.assertEqual(tuple(function.argtypes), tuple(declared))

    def test_no_function_is_missed_by_the_parsing(self):
        named = set(re.findall(r"\b(khuyurek_\w+)\(", self.text))
        self.assertEqual(named, set(functions_of(self.text)))

    def test_numbers(self):
        numbers = numbers_of(self.text)
        named = re.findall(r"^#define (KHUYUREK_\w+) \S", self.text, flags=re.M)
        self.assertEqual(sorted(numbers), sorted(named))
        declared = {name: value for name, value in vars(raw).items() if name.startswith("KHUYUREK_")}
        self.assertEqual(numbers, declared)

    def test_structs(self):
        structs = structs_of(self.text)
        declared = {
            name
            for name, value in vars(raw).items()
            if isinstance(value, type) and issubclass(value, ctypes.Structure)
        } - {"Structure"}
        self.assertEqual(set(structs), declared)
        for name, fields in structs.items():
            wanted = []
            for field, of, count in fields:
                element = ctype(of)
                wanted.append((field, element * count if count else element))
            self.assertEqual(getattr(raw, name)._fields_, wanted, name)

    def test_layouts_are_those_of_c(self):
        """Sizes and offsets, from a program that the C compiler makes of the header."""
        compiler = shutil.which("cc")
        self.assertIsNotNone(compiler, "a C compiler is needed")
        lines, wanted = [], []
        for name, fields in structs_of(self.text).items():
            of = getattr(raw, name)
            lines.append(f'printf("{name} %zu\\n", sizeof({name}));')
            wanted.append(f"{name} {ctypes.sizeof(of)}")
            for field, _, _ in fields:
                size = f"sizeof((({name} *)0)->{field})"
                lines.append(f'printf("{name}.{field} %zu %zu\\n", offsetof({name}, {field}), {size});')
                declared = getattr(of, field)
                wanted.append(f"{name}.{field} {declared.offset} {declared.size}")
        body = "\n    ".join(lines)
        with tempfile.TemporaryDirectory() as folder:
            source, program = Path(folder, "layouts.c"), Path(folder, "layouts")
            source.write_text(
                f'#include <stdio.h>\n#include "khuyurek.h"\nint main(void) {{\n    {body}\n'
                "    return 0;\n}\n"
            )
            include = str(HEADER.parent)
            subprocess.run([compiler, "-std=c99", "-I", include, source, "-o", program], check=True)
            said = subprocess.run([program], check=True, capture_output=True, text=True).stdout
        self.assertEqual(said.splitlines(), wanted)

    def test_differences_are_seen(self):
        for old, new in [
            ("size_t lists;", "uint32_t lists;"),
            ("uint16_t samples[4];", "uint16_t samples[5];"),
            ("const uint8_t *string", "uint8_t *string"),
            ("khuyurek_acb_page_at", "khuyurek_acb_page_of"),
            ("KHUYUREK_ACB_WIDTH 13", "KHUYUREK_ACB_WIDTH 14"),
        ]:
            self.assertIn(old, self.text)
            changed = Header("test_functions")
            changed.setUp = lambda: None
            changed.text = self.text.replace(old, new, 1)
            failed = 0
            for test in (changed.test_functions, changed.test_numbers, changed.test_structs):
                try:
                    test()
                except (AssertionError, AttributeError):
                    failed += 1
            self.assertEqual(failed, 1, new)

    def test_exported_names(self):
        """What the shared library shows: the header's functions and its version."""
        tool = shutil.which("nm")
        self.assertIsNotNone(tool, "nm is needed")
        listed = [tool, "-D", "--defined-only", "--format=posix", raw.LIBRARY]
        said = subprocess.run(listed, check=True, capture_output=True, text=True).stdout
        exported = {line.split()[0]: line.split()[1] for line in said.splitlines()}
        functions = {name: "T" for name in raw.FUNCTIONS}
        self.assertEqual(exported, {**functions, "khuyurek_version": "R"})


if __name__ == "__main__":
    unittest.main()
