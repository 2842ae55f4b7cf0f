#!/usr/bin/env bash
# Looks for known vulnerabilities in what is linked into the programs in Go, by govulncheck: vulnerabilities.sh [FOLDER]
# FOLDER has the programs, by default cmd/out. VULNDB names another database than govulncheck's own (https://.. or file://..).
# Status 0: none is known. 1: some are, which govulncheck prints. 2: it can't look.
set -u
cd "$(dirname "$0")/.." || exit 1
folder=${1:-cmd/out}
if ! command -v govulncheck >/dev/null; then
  echo "vulnerabilities.sh: govulncheck isn't on the PATH (install one of version 1.0 or later; release/README.md says what to do without it)" >&2
  exit 2
fi
status=0
for name in $(sed -n 's/^programs=(\(.*\))$/\1/p' cmd/build.sh); do
  if [ ! -f "$folder/$name" ]; then
    echo "vulnerabilities.sh: $folder/$name isn't built (make service)" >&2
    exit 2
  fi
  govulncheck -mode=binary ${VULNDB:+-db="$VULNDB"} "$folder/$name"
  case $? in
    0) echo "$name: no known vulnerability" ;;
    3)
      echo "$name: VULNERABLE"
      status=1
      ;;
    *)
      echo "vulnerabilities.sh: govulncheck can't read $folder/$name, or has no database (use a version that knows this Go, and VULNDB=file://FOLDER without a network)" >&2
      exit 2
      ;;
  esac
done
exit "$status"
