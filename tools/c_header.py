"""The structs and calls of C declarations, above all of include/jri.h, for the tools that compare or use them."""

import ctypes
import os
import re

HEADER = os.path.join(os.path.dirname(os.path.abspath(__file__)), "..", "include", "jri.h")
TYPES = {"uint8_t": ctypes.c_uint8, "uint32_t": ctypes.c_uint32, "uint64_t": ctypes.c_uint64, "int32_t": ctypes.c_int32}


def read():
    """Returns the text of jri.h."""
    with open(HEADER, encoding="utf-8") as file:
        return file.read()


def plain(text):
    """Returns C declarations without comments and lines of the preprocessor."""
    return re.sub(r"/\*.*?\*/|^#[^\n]*\n", "", text, flags=re.S | re.M)


def fields_of(body):
    """Returns the fields of a struct, each with its type."""
    found = []
    for declaration in filter(str.strip, body.split(";")):
        kind, names = declaration.strip().split(" ", 1)
        found += [(kind, it.strip()) for it in names.split(",")]
    return found


def type_of(parameter):
    """Returns the type of a parameter, which may have a name."""
    words = re.findall(r"\w+|\*", parameter)
    is_named = len(words) > 1 and words[-1] != "*" and words[-2] not in ("struct", "const")
    return " ".join(words[:-1] if is_named else words)


def structs_of(text):
    """Returns the fields of each struct that C declarations declare, by its name."""
    return {name: fields_of(body) for name, body in re.findall(r"struct (\w+) \{(.*?)\};", plain(text), re.S)}


def calls_of(text):
    """Returns the types of what each call returns and takes, by its name."""
    found = re.findall(r"(uint\d+_t) (jri_\w+)\((.*?)\);", plain(text), re.S)
    return {name: [kind, *map(type_of, parameters.split(","))] for kind, name, parameters in found}


def class_of(name, fields):
    """Returns a struct as a class of ctypes."""
    made = []
    for kind, field in fields:
        field, _, count = field.rstrip("]").partition("[")
        made.append((field, TYPES[kind] * int(count) if count else TYPES[kind]))
    return type(name, (ctypes.Structure,), {"_fields_": made})


def classes():
    """Returns the structs of jri.h as classes of ctypes, by their names."""
    return {name: class_of(name, fields) for name, fields in structs_of(read()).items()}
