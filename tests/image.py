"""The calls in the compiled library. Reads an x86-64 object file, or an archive of such, with a section for each
function."""
import struct

RELOCATIONS, CALL, OF_SECTION = 4, 4, 3  # SHT_RELA, R_X86_64_PLT32, STT_SECTION


def objects(data):
    """The object files of an archive, or the one that is given."""
    if not data.startswith(b"!<arch>\n"):
        return [data]
    found, at = [], 8
    while at + 60 <= len(data):
        size = int(data[at + 48:at + 58])
        found.append(data[at + 60:at + 60 + size])
        at += 60 + size + size % 2
    return [member for member in found if member.startswith(b"\x7fELF")]


def text(data, at):
    return data[at:data.index(b"\0", at)].decode("utf-8")


def calls_in(data):
    """Each call that the linker is to fill in: who is called, and by whom."""
    start, = struct.unpack_from("<Q", data, 0x28)
    size, count, names = struct.unpack_from("<HHH", data, 0x3A)
    sections = [struct.unpack_from("<IIQQQQII", data, start + size * i) for i in range(count)]
    named = [text(data, sections[names][4] + of[0]).replace(".text.", "") for of in sections]
    for _, kind, _, _, at, length, table, caller in sections:
        for entry in range(at, at + length, 24) if kind == RELOCATIONS else ():
            how, symbol = struct.unpack_from("<II", data, entry + 8)
            name, what, _, section = struct.unpack_from("<IBBH", data, sections[table][4] + 24 * symbol)
            strings = sections[sections[table][6]][4]
            if how == CALL:
                yield named[section] if what % 16 == OF_SECTION else text(data, strings + name), named[caller]


def calls(path):
    """Who calls each function that is called, once for each call; not a function that calls itself."""
    found = {}
    with open(path, "rb") as file:
        for data in objects(file.read()):
            for called, caller in calls_in(data):
                found.setdefault(called, []).append(caller)
    return found
