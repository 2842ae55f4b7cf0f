#!/usr/bin/env bash
# Serves one log of ctserve out of a folder, on loopback: serve.sh [FOLDER] [PORT] [SETTING..], by default ct-log and 8618; settings go to ctserve.
# The first start makes the log in FOLDER: its key (log.key, log.pem), a root of its own to try it with (root.key, root.pem) and a chain that
# leads there (chain.json). Later starts go on with it. A first start that fails leaves no folder. ROOTS is a file with more roots in PEM; by default it is
# the system's. ORIGIN=ct-log.example is the log's name in checkpoints.
# ctserve contains the proved code, which gcc compiles from dist/: nothing is proved here.
set -eu
here=$(cd "$(dirname "$0")" && pwd)
folder=${1:-ct-log} port=${2:-8618}
if [ $# -lt 2 ]; then shift $#; else shift 2; fi

# Each port must be free before anything is built or made.
for taken in "$port" "$((port + 1))"; do
  if (exec 3<>"/dev/tcp/127.0.0.1/$taken") 2>/dev/null; then
    echo "serve.sh: another program listens at port $taken (take other ports: make serve PORT=$((port + 10)))" >&2
    exit 1
  fi
done
# A log is made once: a log whose objects exist and whose lock does not exist would be another one of that name.
if [ ! -e "$folder/made" ] && [ -n "$(ls -A "$folder" 2>/dev/null)" ]; then
  echo "serve.sh: $folder isn't a log that serve.sh made, or is incomplete (remove it and run this again: rm -r $folder)" >&2
  exit 1
fi
"$here/../deps/fetch.sh" openssl
echo "The decisions of this log are proved code, compiled from dist/. To prove them here: make prove, with the Rattle kit (README.md, 'With the kit')."
[ -x "$here/out/ctserve" ] || echo "Building ctserve, a minute and a half of one processor."
"$here/build.sh" build
mkdir -p "$(dirname "$folder")"
folder=$(cd "$(dirname "$folder")" && pwd)/$(basename "$folder")

# ctserve_at FOLDER SETTING..: puts the arguments of ctserve over the log in a folder into `settings`.
ctserve_at() {
  local at=$1
  shift
  settings=(--origin "${ORIGIN:-ct-log.example}" --listen "127.0.0.1:$port" --operator-listen "127.0.0.1:$((port + 1))" --signing-key "$at/log.key"
    --roots "$at/roots.pem" --folder "$at/log" "$@")
}

# make: key, root and chain, and the log, which is ready once before it is served. All of it is made beside FOLDER, which it becomes at the end.
make() {
  local name log made
  made=$(mktemp -d "$folder.XXXXXX")
  # shellcheck disable=SC2064
  trap "rm -rf '$made'" EXIT
  cd "$made"
  for name in log root leaf; do openssl ecparam -name prime256v1 -genkey -noout -out "$name.key"; done
  openssl ec -in log.key -pubout -out log.pem 2>/dev/null
  openssl req -x509 -key root.key -subj "/CN=a root to try a log with" -days 3650 -out root.pem
  openssl req -new -key leaf.key -subj /CN=shop.example.org |
    openssl x509 -req -CA root.pem -CAkey root.key -set_serial 1 -days 90 -out leaf.pem 2>/dev/null
  printf '{"chain":["%s","%s"]}\n' "$(openssl x509 -in leaf.pem -outform DER | base64 -w 0)" "$(openssl x509 -in root.pem -outform DER | base64 -w 0)" >chain.json
  cp root.pem roots.pem
  ctserve_at "$made" "$@"
  "$here/out/ctserve" "${settings[@]}" --create 2>create.log &
  log=$!
  until grep -qs '"event":"serving"' create.log; do
    kill -0 "$log" 2>/dev/null || { cat create.log >&2; return 1; }
    sleep 0.1
  done
  kill -TERM "$log"
  wait "$log"
  touch made
  cd /
  chmod 755 "$made"
  # (an empty folder is replaced)
  mv -T "$made" "$folder"
}

[ -e "$folder/made" ] || (umask 077 && make "$@")
ctserve_at "$folder" "$@"
roots=${ROOTS:-/etc/ssl/certs/ca-certificates.crt}
[ -n "${ROOTS:-}" ] || [ -e "$roots" ] || roots=/dev/null
cat "$folder/root.pem" "$roots" >"$folder/roots.pem"
cat <<END_OF_TEXT
A log in $folder:
  a page        http://127.0.0.1:$port/
  its head      curl http://127.0.0.1:$port/checkpoint
  a submission  curl -d @$folder/chain.json http://127.0.0.1:$port/ct/v1/add-chain
  metrics       curl http://127.0.0.1:$((port + 1))/metrics
  its key       $folder/log.pem
END_OF_TEXT
exec "$here/out/ctserve" "${settings[@]}"
