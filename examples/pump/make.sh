#!/bin/sh
# Makes the five states of the pump station from their lists, as docs/cost-engineer.md tells it.
set -e
cd "$(dirname "$0")"
pert-import lists/plan.csv --name "Pump station" --start 2026-01-05 --cents -o plan.csv
pert-ledger plan.csv lists/january-vouchers.csv --progress lists/january-progress.csv \
    --as-of 2026-01-31 -o january.csv
pert-ledger january.csv lists/february-vouchers.csv --progress lists/february-progress.csv \
    --to-go lists/february-to-go.csv --as-of 2026-02-28 --accept later -o february.csv
pert-ledger february.csv lists/march-vouchers.csv --progress lists/march-progress.csv \
    --to-go lists/march-to-go.csv --as-of 2026-03-31 --accept later -o march.csv
cp march.ledger.csv april.ledger.csv
pert-import lists/april.csv --name "Pump station" --start 2026-01-05 --as-of 2026-04-30 --cents -o april.csv
pert-ledger april.csv lists/april-vouchers.csv -o april.csv --overwrite
pert-ledger april.csv lists/may-vouchers.csv --progress lists/may-progress.csv \
    --to-go lists/may-to-go.csv --as-of 2026-05-31 -o may.csv
