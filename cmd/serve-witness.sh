#!/usr/bin/env bash
# Serves a witness of one log on loopback: serve-witness.sh [FOLDER] [PORT] [LOG], by default ct-witness, 8640 and ct-log, the folder of serve.sh, which
# contains the log's public key, log.pem. ORIGIN=ct-log.example is the log's name in checkpoints.
# The first start makes the witness's key, its settings and the log's state in FOLDER. Later starts go on with them.
# ctwitness contains the proved code, which gcc compiles from dist/: nothing is proved here.
set -eu
here=$(cd "$(dirname "$0")" && pwd)
folder=${1:-ct-witness} port=${2:-8640} log=${3:-ct-log} origin=${ORIGIN:-ct-log.example}

# Each port must be free before anything is built or made.
for taken in "$port" "$((port + 1))"; do
  if (exec 3<>"/dev/tcp/127.0.0.1/$taken") 2>/dev/null; then
    echo "serve-witness.sh: another program listens at port $taken (take other ports: make serve-witness WITNESS_PORT=$((port + 10)))" >&2
    exit 1
  fi
done
if [ ! -e "$log/log.pem" ]; then
  echo "serve-witness.sh: $log has no log.pem (run make serve first: it makes a log there)" >&2
  exit 1
fi
"$here/../deps/fetch.sh" openssl
echo "The decisions of this witness are proved code, compiled from dist/. To prove them here: make prove, with the Rattle kit (README.md, 'With the kit')."
"$here/build.sh" build
mkdir -p "$folder"
folder=$(cd "$folder" && pwd)
log=$(cd "$log" && pwd)
arguments=(--config "$folder/settings" --listen "127.0.0.1:$port" --operator-listen "127.0.0.1:$((port + 1))")
# (a witness is made once: one whose state isn't there knows nothing of what it cosigned)
if [ ! -e "$folder/made" ]; then
  (umask 077 && openssl genpkey -algorithm ed25519 -out "$folder/key.pem")
  cat >"$folder/settings" <<END_OF_SETTINGS
name ${NAME:-witness.example}
key $folder/key.pem
state file:$folder/states
log $origin $log/log.pem
END_OF_SETTINGS
  "$here/out/ctwitness" "${arguments[@]}" --create "$origin" 2>"$folder/create.log" || { cat "$folder/create.log" >&2; exit 1; }
  touch "$folder/made"
fi
cat <<END_OF_TEXT
A witness in $folder, of $origin:
  its key       $("$here/out/ctwitness" "${arguments[@]}" --verifier-key)
  asked at      http://127.0.0.1:$port/add-checkpoint
  metrics       curl http://127.0.0.1:$((port + 1))/metrics
END_OF_TEXT
exec "$here/out/ctwitness" "${arguments[@]}"
