#!/bin/sh
# Checks the expressions of the alerts, and tries the alerts over made-up metrics, with promtool.
set -eu
cd "$(dirname "$0")"
if ! command -v promtool >/dev/null; then
  echo "left out: the alerts of release/prometheus (promtool is not installed)"
  exit
fi
promtool check rules ctserve.rules.yml
promtool test rules ctserve.rules.test.yml
