#!/usr/bin/env bash
# Runs a log on loopback and in a folder: three members of etcd with its lock, PostgreSQL with its index, Ceph's S3 with its objects, NODES=3 nodes of ctserve
# over them, WITNESSES=3 witnesses of its heads (0 for none), a loader and a reader.
#   cluster.sh start FOLDER [PORT]   starts it, or continues the one that was stopped there, and says where to look
#   cluster.sh status FOLDER         says what runs and what it said last
#   cluster.sh stop FOLDER           ends it; ctaudit judges what it published and answered
# ENGINES="postgres s3" keeps the lock in PostgreSQL instead. ENGINES="" keeps all of the log in the folder, which one node can use. FRONT=yes has nginx in front of the nodes, with
# release/nginx/ctserve.nginx.conf. RATE=20 is how many submissions the loader sends a second, 0 as many as are answered; LOAD=no starts neither it nor the reader.
# BUILD=no takes the programs of cmd/out as they are.
# One signer has the key, for all nodes. The log accepts the root in root.pem, whose key is in root.key, and the loader's own.
set -eu
here=$(cd "$(dirname "$0")" && pwd)
what=${1:-} folder=${2:-}
if [ -z "$folder" ] || [[ $what != start && $what != status && $what != stop ]]; then
  echo "cluster.sh start FOLDER [PORT] | status FOLDER | stop FOLDER" >&2
  exit 1
fi
programs=$here/../cmd/out
origin=cluster.example/log
mkdir -p "$folder"
folder=$(cd "$folder" && pwd)

# began ID: when a process began, so that another one with its number isn't taken for it.
began() { sed -n 's/^.*) [^Z] //p' "/proc/$1/stat" 2>/dev/null | cut -d ' ' -f 19; }

process() {
  local id since
  read -r id since 2>/dev/null <"$folder/$1.id" && [ -n "$since" ] && [ "$since" = "$(began "$id")" ] && echo "$id"
}

# launch NAME COMMAND..
launch() {
  local name=$1
  shift
  process "$name" >/dev/null && return
  nohup "$@" >>"$folder/$name.log" 2>&1 </dev/null &
  echo "$! $(began $!)" >"$folder/$name.id"
}

end() {
  local id
  id=$(process "$1") || return 0
  kill -TERM "$id"
  for _ in $(seq 350); do
    [ -n "$(began "$id")" ] || return 0
    sleep 0.1
  done
  echo "cluster.sh: $1 doesn't end, and is killed"
  kill -KILL "$id"
}

# addresses: the addresses of the engines, and the settings by which a node gets them.
addresses() {
  local postgres
  # shellcheck source=/dev/null
  . "$folder/engines/addresses"
  bucket=$folder/log/objects stores="folder  $folder/log"
  [ -n "${STORES_S3:-}" ] || return 0
  bucket="${STORES_S3/http:/s3:}/log?tls=no"
  postgres="postgres://log@127.0.0.1:$(sed 's/.*port=\([0-9]*\).*/\1/' <<<"$STORES_POSTGRES")/postgres?log=log&sslmode=disable"
  stores="store  $bucket
index  $postgres
lock  ${STORES_MEMBERS:+etcd://$STORES_MEMBERS/log}"
  [ -n "${STORES_MEMBERS:-}" ] || stores+=$postgres
}

# numbers KIND: those of the nodes, or of the witnesses.
numbers() { find "$folder" -maxdepth 1 -name "$1-*.conf" | sed "s/^.*$1-\([0-9]*\)\.conf\$/\1/" | sort -n; }

nodes() { numbers node; }

witnesses() { numbers witness; }

node_conf() {
  local i=$1 port=$2 peers=""
  if [ -n "${STORES_S3:-}" ]; then
    "$here/../release/node-certificate.sh" "$folder" "node-$i" 127.0.0.1
    peers="nodes-listen     127.0.0.1:$((port + 20 + i))
nodes-address    https://127.0.0.1:$((port + 20 + i))
nodes-certificate  $folder/node-$i.pem
nodes-key        $folder/node-$i.key
nodes-ca         $folder/nodes-ca.pem"
  fi
  cat >"$folder/node-$i.conf" <<END_OF_CONF
origin           $origin
listen           127.0.0.1:$((port + i))
operator-listen  127.0.0.1:$((port + 10 + i))
$peers
signer-socket    $folder/signer
roots            $folder/roots.pem
$stores
latest-head      $folder/node-$i.latest-head
max-connections-per-address  500
trusted-proxies  127.0.0.1
${words:+witnesses        $words}
END_OF_CONF
  chmod 600 "$folder/node-$i.conf"
}

# made_witness NUMBER PORT: makes a witness, and the log's state with it.
made_witness() {
  local name=$folder/witness-$1
  (umask 077 && openssl genpkey -algorithm ed25519 -out "$name.key")
  cat >"$name.conf" <<END_OF_CONF
name             w$1.cluster.example
key              $name.key
state            file:$name
log              $origin $folder/log.pem
listen           127.0.0.1:$(($2 + 7 + $1))
operator-listen  127.0.0.1:$(($2 + 17 + $1))
END_OF_CONF
  "$programs/ctwitness" --config "$name.conf" --create "$origin" 2>>"$name.log"
  "$programs/ctwitness" --config "$name.conf" --verifier-key >>"$folder/witnesses"
}

# last_of NUMBER: the size and the root of the tree that a witness cosigned last.
# (the message is after two lines, and its checkpoint after two more: docs/WITNESS.md)
last_of() { cat "$folder/witness-$1"/*/text | sed -n '3s/^none yet$/0 none/p;6{h;n;H;g;s/\n/ /p;}'; }

# judge: prints which trees the witnesses cosigned last. It fails if for fewer than half of them and one this is the newest published tree, or if one of them
# cosigned another tree of its size or a larger one.
judge() {
  local i size root at=0 due=$(($(wc -l <"$folder/witnesses") / 2 + 1)) last status=0
  size=$(sed -n 2p "$folder/checkpoint") root=$(sed -n 3p "$folder/checkpoint")
  for i in $(witnesses); do
    last=$(last_of "$i")
    echo "witness-$i cosigned ${last% *} entries last"
    if [ "$last" = "$size $root" ]; then
      at=$((at + 1))
    elif [ "${last% *}" -ge "$size" ]; then
      echo "cluster.sh: the last tree of witness-$i is $last, and that of the log is $size $root" >&2
      status=1
    fi
  done
  [ "$at" -ge "$due" ] || { echo "cluster.sh: the last tree of $at witnesses is that of the log's last head, and it must be so for $due" >&2 && status=1; }
  return "$status"
}

# front PORT: writes nginx's configuration for all nodes. A request goes to another node if one does not answer.
front() {
  local i servers="" kind
  for i in $(nodes); do servers+="server $(sed -n 's/^listen *//p' "$folder/node-$i.conf"); "; done
  mkdir -p "$folder/nginx"
  {
    echo "daemon off; user $(id -un); pid $folder/nginx/pid; error_log $folder/nginx/errors; events {} http {"
    for kind in client_body proxy fastcgi uwsgi scgi; do echo "${kind}_temp_path $folder/nginx/$kind;"; done
    sed "/ssl_certificate/d; s/listen 443 ssl http2;/listen 127.0.0.1:$1;/; s/server 127.0.0.1:8618;/$servers/
      s|proxy_cache_path /var/lib/nginx/ctserve |proxy_cache_path $folder/nginx/tiles |; s/proxy_next_upstream off;/proxy_next_upstream error timeout;/" \
      "$here/../release/nginx/ctserve.nginx.conf"
    echo "}"
  } >"$folder/nginx/conf"
}

start() {
  local port=${1:-8618} i all="" create="" who nothing roots loaded id words="" engines=${ENGINES-members postgres s3} nodes=${NODES:-3}
  if [ -z "$engines" ]; then
    nodes=${NODES:-1}
    [ "$nodes" = 1 ] || { echo "cluster.sh: only one node can use a folder (set NODES=1, or name engines in ENGINES)" >&2; exit 1; }
  fi
  [ "${BUILD:-}" = no ] || "$here/../cmd/build.sh" build
  mkdir -p "$folder/engines"
  ENGINES=$engines PORT=$((port + 30)) "$here/engines.sh" start "$folder/engines"
  addresses
  if [[ $engines == *members* && -z ${STORES_MEMBERS:-} || -n $engines && (-z ${STORES_POSTGRES:-} || -z ${STORES_S3:-}) ]]; then
    "$here/engines.sh" stop "$folder/engines"
    rm -r "$folder/engines"
    exit 1
  fi
  # (a first start that failed is made again)
  [ -e "$folder/made" ] || create=--create
  if [ ! -e "$folder/log.key" ]; then
    (umask 077 && openssl ecparam -name prime256v1 -genkey -noout -out "$folder/log.key")
    openssl ec -in "$folder/log.key" -pubout -out "$folder/log.pem" 2>/dev/null
    openssl req -x509 -newkey ec -pkeyopt ec_paramgen_curve:prime256v1 -nodes -days 3650 -subj "/CN=a root" -keyout "$folder/root.key" -out "$folder/root.pem" 2>/dev/null
    cp "$folder/root.pem" "$folder/roots.pem"
    if [ -n "${STORES_S3:-}" ]; then
      who=${STORES_S3#http://} nothing=$(sha256sum </dev/null | cut -d ' ' -f 1)
      curl -sS --fail -X PUT --user "${who%@*}" --aws-sigv4 aws:amz:us-east-1:s3 -H "x-amz-content-sha256: $nothing" "http://${who#*@}/log"
    fi
    for i in $(seq 0 $((${WITNESSES:-3} - 1))); do
      made_witness "$i" "$port"
      words+=" http://127.0.0.1:$((port + 7 + i)),$(tail -n 1 "$folder/witnesses")"
    done
    for i in $(seq 0 $((nodes - 1))); do node_conf "$i" "$port"; done
    [ -z "${FRONT:-}" ] || front $((port + 29))
  fi
  for i in $(nodes); do all+=${all:+,}http://$(sed -n 's/^listen *//p' "$folder/node-$i.conf"); done
  if [ "${LOAD:-yes}" = yes ]; then
    roots=$(stat -c %s "$folder/roots.pem" 2>/dev/null || echo 0)
    loaded=yes
    process loader >/dev/null || loaded=no
    launch loader "$programs/ctload" --nodes "$all" --roots "$folder/roots.pem" --answers "$folder/answers" --rate "${RATE:-20}" --clients "${CLIENTS:-64}"
    while [ "$loaded" = no ] && [ "$(stat -c %s "$folder/roots.pem" 2>/dev/null || echo 0)" = "$roots" ]; do sleep 0.05; done
    for i in $(nodes); do ! id=$(process "node-$i") || kill -HUP "$id"; done
  fi
  process signer >/dev/null || rm -f "$folder/signer"
  launch signer "$programs/ctserve" signer --signing-key "$folder/log.key" --guard-state "file:$folder/guard" --listen "$folder/signer" ${create:+"$create"}
  for _ in $(seq 300); do
    [ ! -S "$folder/signer" ] || break
    sleep 0.1
  done
  for i in $(witnesses); do launch "witness-$i" "$programs/ctwitness" --config "$folder/witness-$i.conf"; done
  for i in $(nodes); do
    # (the first one makes the log)
    launch "node-$i" "$programs/ctserve" --config "$folder/node-$i.conf" ${create:+"$create"}
    create=
    for _ in $(seq 300); do
      curl -sf -o /dev/null "http://$(sed -n 's/^listen *//p' "$folder/node-$i.conf")/readyz" && continue 2
      process "node-$i" >/dev/null || break
      sleep 0.1
    done
    echo "cluster.sh: node-$i isn't ready: $(tail -n 1 "$folder/node-$i.log")" >&2
    exit 1
  done
  touch "$folder/made"
  [ ! -e "$folder/nginx/conf" ] || PATH=$PATH:/usr/sbin launch front nginx -p "$folder/nginx" -c "$folder/nginx/conf"
  if [ "${LOAD:-yes}" = yes ]; then
    [ -x "$folder/tlog" ] || "$here/../deps/go" -C "$here/.." build -o "$folder/tlog" ./tests/clients/tlog
    # shellcheck disable=SC2086
    launch reader "$folder/tlog" -origin "$origin" -key "$folder/log.pem" ${all//,/ }
  fi
  cat <<END_OF_TEXT
A log at ${all//,/, } runs:
  page          ${all%%,*}/
  tree head     curl ${all%%,*}/checkpoint
  metrics       curl http://$(sed -n 's/^operator-listen *//p' "$folder/node-0.conf")/metrics
  loader        $folder/loader.log; the log's answers: $folder/answers
  reader        tail -f $folder/reader.log
  witnesses     $(cut -d + -f 1 "$folder/witnesses" 2>/dev/null | paste -sd ' ')
  bucket        $bucket
  etcd          ${STORES_MEMBERS:-}
  PostgreSQL    ${STORES_POSTGRES:-}
  kill a node   kill -9 \$(cut -d ' ' -f 1 $folder/node-0.id); '$0 start $folder' starts it again
  stop          $0 stop $folder
END_OF_TEXT
}

# A cluster that was never started can't be looked at, nor stopped.
is_there() {
  [ -e "$folder/engines/addresses" ] || { echo "cluster.sh: no cluster is in $folder: make cluster starts one" >&2; exit 1; }
}

# each NAME..: a line for each process.
status() {
  local name state names said
  is_there
  for name in $(nodes | sed 's/^/node-/') $(witnesses | sed 's/^/witness-/') signer loader reader front; do
    [ -e "$folder/$name.id" ] || continue
    state=gone
    ! process "$name" >/dev/null || state=runs
    case $name in
      witness-*) said="cosigned $(last_of "${name#witness-}" | cut -d ' ' -f 1) entries last" ;;
      *) said=$(tail -n 1 "$folder/$name.log" 2>/dev/null) || said= ;;
    esac
    echo "$name $state: $said"
  done
  mapfile -t names <"$folder/engines/names"
  for name in ${names[@]+"${names[@]}"}; do
    state=gone
    ! process "engines/$name" >/dev/null || state=runs
    echo "$name $state"
  done
}

stop() {
  local name status=0 i
  is_there
  for name in loader reader; do
    if [ -e "$folder/$name.id" ] && ! process "$name" >/dev/null; then
      echo "cluster.sh: the $name ended by itself: $(tail -n 1 "$folder/$name.log")" >&2
      status=1
    fi
    end "$name"
  done
  rm -f "$folder/checkpoint"
  # (what was submitted last may still come into a head: it is the last one once nothing more is cosigned than is published)
  for _ in $(seq 100); do
    for i in $(nodes); do
      curl -sf -o "$folder/checkpoint.new" "http://$(sed -n 's/^listen *//p' "$folder/node-$i.conf")/checkpoint" && mv "$folder/checkpoint.new" "$folder/checkpoint" && break
    done
    if [ ! -s "$folder/witnesses" ] || [ ! -e "$folder/checkpoint" ] || judge >/dev/null 2>&1; then break; fi
    sleep 0.5
  done
  for name in front $(nodes | sed 's/^/node-/') signer $(witnesses | sed 's/^/witness-/'); do end "$name"; done
  [ ! -s "$folder/witnesses" ] || [ ! -e "$folder/checkpoint" ] || judge || status=1
  tail -qn 1 "$folder/loader.log" "$folder/reader.log" 2>/dev/null || true
  addresses
  touch "$folder/answers"
  "$programs/ctaudit" fsck "$bucket" "$folder/log.pem" "$folder/answers" || status=$?
  "$here/engines.sh" stop "$folder/engines"
  return "$status"
}

case $what in
  start) start "${3:-}" ;;
  status) status ;;
  stop) stop ;;
esac
