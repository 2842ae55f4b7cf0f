#!/usr/bin/env bash
# Has clients of others use a log of ctserve over HTTP: certspotter follows it by RFC 6962's calls to verified heads of 30 and, from there,
# of 50 entries; tests/clients/client.go submits five more by Google's client library, and checks what is answered; and meanwhile tests/clients/tlog
# follows its tiles with golang.org/x/mod/sumdb to the last leaf and head. ctwatch watches it by its tiles and by the API of RFC 6962, at 30
# entries and at the end. Which certificates certspotter and ctwatch report to an owner is compared (tests/names/beside.py). At the end ctaudit judges the
# log from its folder. It needs certspotter, openssl and curl. It
# says what it leaves out.
set -eu
here=$(cd "$(dirname "$0")" && pwd)
for tool in openssl curl python3; do
  command -v "$tool" >/dev/null || { echo "clients.sh lacks $tool" >&2; exit 1; }
done
"$here/../cmd/build.sh" build
work=$(mktemp -d)
origin=clients.example/log
export PYTHONDONTWRITEBYTECODE=1
running=
trap 'kill $running 2>/dev/null || true; wait; rm -rf "$work"' EXIT

fail() {
  echo "clients.sh: $1" >&2
  tail -n 5 "$work"/*.told >&2
  exit 1
}

openssl ecparam -name prime256v1 -genkey -noout -out "$work/log.key" && chmod 600 "$work/log.key"
openssl ec -in "$work/log.key" -pubout -out "$work/log.pem" 2>/dev/null
openssl req -x509 -newkey ec -pkeyopt ec_paramgen_curve:P-256 -nodes -keyout "$work/root.key" -subj "/CN=A root" -days 30 -out "$work/root.pem" 2>/dev/null
openssl ecparam -name prime256v1 -genkey -noout -out "$work/leaf.key"
# A real precertificate, whose issuer is taken for a root.
python3 - "$here/../examples/real-chains.jsonl" "$work" <<'END'
import base64, json, pathlib, sys, textwrap

work, lines = pathlib.Path(sys.argv[2]), [json.loads(line) for line in open(sys.argv[1]) if "add-pre-chain" in line]
chain = next(line["chain"] for line in lines if line.get("op") == "add-pre-chain" and len(line["chain"]) > 1)
(work / "precertificate").write_text(json.dumps({"chain": chain}))
text = "\n".join(textwrap.wrap(chain[-1], 64))
(work / "roots.pem").write_text((work / "root.pem").read_text() + f"-----BEGIN CERTIFICATE-----\n{text}\n-----END CERTIFICATE-----\n")
END

"$here/../cmd/out/ctserve" --origin "$origin" --listen 127.0.0.1:0 --operator-listen "" --signing-key "$work/log.key" \
  --roots "$work/roots.pem" --folder "$work/log" --interval 50ms --create 2>"$work/ctserve.told" &
running=$!
for _ in $(seq 600); do
  grep -q '"event":"serving"' "$work/ctserve.told" && break
  kill -0 "$running" 2>/dev/null || fail "ctserve ended"
  sleep 0.1
done
address=$(sed -n 's/.*"event":"listening".*"address":"\([^"]*\)".*/\1/p' "$work/ctserve.told" | head -n 1)
base=http://$address/
"$here/../deps/go" -C "$here/.." build -o "$work/tlog" ./tests/clients/tlog
"$work/tlog" -origin "$origin" -key "$work/log.pem" -every 200ms "http://$address" >"$work/tlog.told" 2>&1 &
reader=$!
running+=" $reader"

# Makes the certificate of this number, for a name of its own below example.org.
make_certificate() {
  local name=host-$1.example.org
  openssl req -new -key "$work/leaf.key" -subj "/CN=$name" 2>/dev/null |
    openssl x509 -req -CA "$work/root.pem" -CAkey "$work/root.key" -set_serial "$1" -days 20 -extfile <(echo "subjectAltName=DNS:$name") \
      -outform DER -out "$work/certificate.$1" 2>/dev/null
}

# Submits certificates number $1 to $2.
submit() {
  for number in $(seq "$1" "$2"); do
    make_certificate "$number"
    printf '{"chain":["%s"]}' "$(base64 -w0 "$work/certificate.$number")" | curl -sSf -d @- "${base}ct/v1/add-chain" >/dev/null ||
      fail "certificate $number is refused"
  done
}

# Runs certspotter until it has verified a head of $1 entries.
follow() {
  local watcher verified=$here/clients/verified.py
  certspotter -verbose -stdout -no_save -logs "$work/logs.json" -state_dir "$work/certspotter" -watchlist "$work/watched-names" >"$work/watched.$1.told" 2>&1 &
  watcher=$!
  running+=" $watcher"
  for _ in $(seq 300); do
    python3 "$verified" "$work/certspotter" "$base" "$1" 2>/dev/null && break
    kill -0 "$watcher" 2>/dev/null || fail "certspotter ended"
    sleep 0.2
  done
  kill "$watcher" && wait "$watcher" || true
  python3 "$verified" "$work/certspotter" "$base" "$1" || fail "certspotter has verified no head of $1 entries"
}

# Checks that certspotter has reported the 49 certificates and the precertificate for which it watched, and says so.
told() {
  local names version
  names=$(sed -n 's/.*DNS Name = \(host-[0-9]*\.example\.org\)$/\1/p' "$work"/watched.*.told | sort -u | wc -l)
  [ "$names" = 49 ] || fail "certspotter reports $names certificates of the 49 for which it watched"
  grep -q 'DNS Name = cryptography.io' "$work/watched.30.told" || fail "certspotter doesn't report the precertificate"
  version=$(certspotter -version 2>&1 | grep -o '[0-9][0-9.]*' | head -n 1)
  echo "certspotter $version verified the heads of 30 and, from there, of 50 entries, and reported all 49 certificates and the precertificate for which it watched."
}

# Has ctwatch read the log to its head of $1 entries, for the name of the precertificate and of entry 7, by both interfaces.
watch() {
  for kind in tiled+ ""; do
    ended=0 store="$work/watched${kind%+}"
    "$here/../cmd/out/ctwatch" run --once --from-start --listen= --unread none --folder "$store" --name cryptography.io --name host-7.example.org \
      --accepted-folder "$store/accepted" --log "$kind${base%/} $work/log.pem${kind:+ $origin}" >>"$work/watch.told" 2>&1 || ended=$?
    # (8: a certificate was found)
    [ $ended = 0 ] || [ $ended = 8 ] || fail "ctwatch ended with status $ended"
  done
  [ "$(sed -n 2p "$work/watchedtiled/accepted/"*)" = "$1" ] || fail "ctwatch accepted another head than that of $1 leaves"
}

submit 1 29
curl -sSf -d @"$work/precertificate" "${base}ct/v1/add-pre-chain" >/dev/null || fail "the precertificate is refused"
watch 30
if command -v certspotter >/dev/null; then
  printf '.example.org\n.cryptography.io\n' >"$work/watched-names"
  python3 - "$base" "$work/log.pem" >"$work/logs.json" <<'END'
import base64, hashlib, json, sys

key = "".join(line for line in open(sys.argv[2]).read().split("\n") if "-" not in line)
log = {"key": key, "log_id": base64.b64encode(hashlib.sha256(base64.b64decode(key)).digest()).decode(), "description": "a log", "mmd": 86400,
       "url": sys.argv[1], "state": {"usable": {"timestamp": "2026-01-01T00:00:00Z"}}}
operators = [{"name": "an operator", "email": [], "logs": [log]}]
print(json.dumps({"version": "1.0.0", "log_list_timestamp": "2026-01-01T00:00:00Z", "operators": operators}))
END
  follow 30
  submit 31 50
  follow 50
  told
  "$here/names/beside.py" || fail "certspotter and ctwatch report others than their table has"
else
  echo "certspotter isn't installed, and wasn't tried."
  submit 31 50
fi

size=55
for number in $(seq 51 55); do
  make_certificate "$number"
done
"$here/../deps/go" -C "$here/.." build -o "$work/client" ./tests/clients
"$work/client" -key "$work/log.pem" "$base" "$work"/certificate.5[1-5] || fail "Google's client library doesn't take what is answered"

for _ in $(seq 300); do
  grep -q ": $size entries, " "$work/tlog.told" && break
  kill -0 "$reader" 2>/dev/null || fail "tlog ended"
  sleep 0.2
done
kill "$reader" && wait "$reader" || fail "tlog didn't end well"
heads=$(grep -c 'consistent, and all leaves are there$' "$work/tlog.told")
grep -q "^$size entries were read, and all was right$" "$work/tlog.told" || fail "tlog hasn't read $size entries"
echo "x/mod's tlog read $heads heads, each consistent with the one before, and all $size leaves."
watch "$size"
for kind in tiled ""; do
  found=$(for name in cryptography.io host-7.example.org; do "$here/../cmd/out/ctwatch" query "$name" --json --folder "$work/watched$kind"; done | wc -l)
  [ "$found" = 2 ] || fail "ctwatch finds $found certificates, and not 2"
done
echo "ctwatch watched it by its tiles and by the API of RFC 6962, at 30 and $size entries."
kill "${running%% *}" && wait "${running%% *}" || fail "ctserve didn't end well"
"$here/../cmd/out/ctaudit" fsck "$work/log/objects" "$work/log.pem"
