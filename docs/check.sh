#!/usr/bin/env bash
# Checks the documents, in seconds: links, names of files and functions, commands, quotations, the contracts of PROMISES.md, and pictures.
# make test runs it too.
set -u
cd "$(dirname "$0")/.." || exit 1
export PYTHONDONTWRITEBYTECODE=1
status=0
python3 checks/documents.py || status=1
python3 checks/promises.py || status=1
python3 checks/architecture.py || status=1
python3 checks/pictures.py || status=1
exit $status
