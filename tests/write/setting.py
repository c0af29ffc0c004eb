"""What all tests of tools/csv_sheets.py use: the library, a folder to try things in, and sheets made by the words of docs/SHEETS.md."""

import os
import shutil
import struct

import csv_sheets

COMBINATIONAL = ["dataa", "datab", "datac", "datad", "cin", "combout", "cout"]
REGISTER = ["datain", "clk", "ena", "aclr", "sclr", "sload", "sdata", "regout"]
PORTS = {"combinational": COMBINATIONAL, "register": REGISTER}
OUTPUTS = ("combout", "cout", "regout")
HEADINGS = ["name", "kind", "sum_lutc_input"] + COMBINATIONAL + REGISTER
ROLES = {"clk": 1, "ena": 2, "aclr": 4, "sclr": 8, "sload": 16}


class Setting:
    """The repository, the library, and a folder for files. said has all lines that refused a call."""

    def __init__(self, top, work):
        self.top, self.shared_object = top, os.path.join(work, "libnurimkkot.so")
        self.library = csv_sheets.Library(self.shared_object)
        self.folder = os.path.join(work, "folder")
        self.said = []

    def fill(self, files):
        """Makes the folder anew, with these files."""
        shutil.rmtree(self.folder, ignore_errors=True)
        os.mkdir(self.folder)
        for name, data in files.items():
            with open(os.path.join(self.folder, name), "wb") as file:
                file.write(data if isinstance(data, bytes) else data.encode())

    def found(self):
        """The files in the folder."""
        found = {}
        for name in os.listdir(self.folder):
            with open(os.path.join(self.folder, name), "rb") as file:
                found[name] = file.read()
        return found

    def refusal(self, verb):
        """The lines with which a verb refuses, or None where it does not."""
        try:
            verb(self.library, self.folder)
        except csv_sheets.Refused as why:
            self.said += why.lines
            return list(why.lines)
        return None


# ---------------------------------------------------------------- sheets by docs/SHEETS.md

def exercise(nets, *cells):
    """An exercise sheet. A cell is (kind, flag, eleven codes)."""
    head = b"LXE" + struct.pack("<HHH", 1, nets, len(cells))
    return head + b"".join(struct.pack("<BB11H", kind, flag, *codes) for kind, flag, codes in cells)


def answer(apprentice, *places):
    """An answer sheet. A place is (x, y, LE)."""
    return b"LXA" + struct.pack("<HIH", 1, apprentice, len(places)) + b"".join(struct.pack("<4B", *place, 0) for place in places)


def settings(version, board, *entries):
    """A settings sheet. An entry is a byte of flags."""
    return b"LXT" + struct.pack("<HB", version, len(entries)) + (struct.pack("<H", board) if version == 2 else b"") + bytes(entries)


def exercise_of(rows):
    """The exercise sheet of a table: rows with kind, cin (for the flag) and signals by port, or with kind net and a name. A signal is
    'GND', 'VCC' or (name, inverted)."""
    nets, cells = {}, []
    for row in rows:
        if row["kind"] == "net":
            nets.setdefault(row["name"], len(nets))
            continue
        codes = []
        for port in PORTS[row["kind"]]:
            signal = row["signals"].get(port)
            if signal is None:
                codes.append(0)
            elif signal in ("GND", "VCC"):
                codes.append({"GND": 1, "VCC": 2}[signal])
            else:
                nets.setdefault(signal[0], len(nets))
                codes.append(4 + 2 * nets[signal[0]] + (1 if signal[1] else 0))
        codes += [0] * (11 - len(codes))
        cells.append(({"combinational": 1, "register": 2}[row["kind"]], 1 if row["cin"] else 0, codes))
    return exercise(len(nets), *cells)
