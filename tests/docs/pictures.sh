#!/usr/bin/env bash
# Draws the pictures in the documents from report pages of the house: docs/house-report.png, the top of the page, and one picture for each of four
# sections.
#
#   tests/docs/pictures.sh FOLDER     FOLDER: where the programs are; needs chromium
#
# Fonts differ between systems, so no test compares the pictures: draw them again when the page changes, and look at them.
[ $# -eq 1 ] || { sed -n "2,/^\\[/s/^# \\{0,1\\}//p" "$0" >&2; exit 2; }
set -eu
folder=$(cd "$1" && pwd)
cd "$(dirname "$0")/../../companion"
PATH="$folder:$PATH" PYTHONPATH=src:tests PYTHONDONTWRITEBYTECODE=1 /usr/bin/python3 -m page.pictures ../docs
