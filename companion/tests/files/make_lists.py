"""Makes the task lists of LibreOffice in this folder. Run by hand, where LibreOffice is installed.

    /usr/bin/python3 make_lists.py

The plan is written with openpyxl the way people keep one; LibreOffice saves it as a workbook of its
own, and as CSV in three locales: its date, decimal mark and separator differ.
"""

import subprocess
import tempfile
from datetime import date
from pathlib import Path

from openpyxl import Workbook
from openpyxl.styles import Alignment, Font

HERE = Path(__file__).parent
HEADINGS = [
    "ID",
    "Task Name",
    "Duration",
    "Start",
    "Finish",
    "Predecessors",
    "Resource Names",
]
HEADINGS += ["Cost", "% Complete", "Crash Duration", "Cost per Day"]
ROWS: list[list[object]] = [
    [1, "Shell", None, None, None, None, None, 9200, None, None, None],
    [
        2,
        "Foundation",
        6,
        (2026, 3, 2),
        (2026, 3, 9),
        None,
        "Crew[200%]",
        2500.5,
        1,
        4,
        120,
    ],
    [
        3,
        "Walls, north",
        10.5,
        (2026, 3, 10),
        (2026, 3, 24),
        "2",
        "Masons",
        6699.5,
        0.25,
        7,
        95.5,
    ],
    [4, "Inside", None, None, None, None, None, None, None, None, None],
    [
        5,
        "Wires",
        4,
        (2026, 3, 13),
        (2026, 3, 18),
        "3SS+3 days",
        None,
        1800,
        0,
        None,
        None,
    ],
    [6, "Übergabe", 0, (2026, 3, 24), (2026, 3, 24), "3,5", None, None, 0, None, None],
]
LOCALES = {"en-US": (",", 1033), "en-GB": (",", 2057), "de-DE": (";", 1031)}


def workbook(path: Path) -> None:
    """Writes the plan: a title, bold groups, indented tasks, dates, percentages and amounts."""
    book = Workbook()
    sheet = book.active
    sheet.title = "Terminplan"
    sheet.append(["House by the lake"])
    sheet.append([])
    sheet.append(HEADINGS)
    for number, row in enumerate(ROWS, 4):
        sheet.append([date(*cell) if isinstance(cell, tuple) else cell for cell in row])
        is_group = row[2] is None
        sheet.cell(number, 2).font = Font(bold=is_group)
        sheet.cell(number, 2).alignment = Alignment(indent=0 if is_group else 1)
        for column in (4, 5):
            sheet.cell(number, column).number_format = "mm-dd-yy"
        for column in (8, 11):
            sheet.cell(number, column).number_format = "#,##0.00"
        sheet.cell(number, 9).number_format = "0%"
    book.save(path)


def profile(folder: Path, locale: str) -> str:
    """Makes a profile of LibreOffice with a locale, and returns its option."""
    user = folder / locale / "user"
    user.mkdir(parents=True)
    (user / "registrymodifications.xcu").write_text(
        '<?xml version="1.0" encoding="UTF-8"?>\n'
        '<oor:items xmlns:oor="http://openoffice.org/2001/registry">'
        '<item oor:path="/org.openoffice.Setup/L10N"><prop oor:name="ooSetupSystemLocale" '
        f'oor:op="fuse"><value>{locale}</value></prop></item></oor:items>\n',
        encoding="utf-8",
    )
    return f"-env:UserInstallation=file://{folder / locale}"


def main() -> None:
    """Makes all files."""
    with tempfile.TemporaryDirectory() as scratch:
        folder = Path(scratch)
        book = folder / "lake.xlsx"
        workbook(book)
        for locale, (separator, language) in LOCALES.items():
            option = profile(folder, locale)
            csv = f"csv:Text - txt - csv (StarCalc):{ord(separator)},34,76,1,,{language},false,true"
            kinds = {f"lake-{locale}.csv": csv}
            if locale == "en-US":
                kinds["lake-libreoffice.xlsx"] = "xlsx"
            for name, kind in kinds.items():
                out = folder / name / "out"
                command = ["soffice", option, "--headless", "--convert-to", kind]
                subprocess.run([*command, "--outdir", str(out), str(book)], check=True)
                made = next(out.iterdir())
                (HERE / name).write_bytes(made.read_bytes())


if __name__ == "__main__":
    main()
