#!/usr/bin/env bash
# Runs engines of its own, on loopback and in a folder:
#   engines.sh run COMMAND..        starts them, runs the command with their addresses, and stops them; it ends with the command's status
#   engines.sh start FOLDER         starts them in a folder, or those that were stopped there, and writes their addresses to FOLDER/addresses
#   engines.sh stop FOLDER          stops them; their data stays
#   engines.sh again FOLDER NAME    kills one of their processes (-9), and starts it again
#   engines.sh pause FOLDER NAME SECONDS
# ENGINES names those to start: etcd, a member of etcd; members, three of them (Debian's etcd-server and etcd-client); postgres (postgresql);
# s3, Ceph with its S3 (radosgw, ceph-mon, ceph-osd, ceph-mgr). Without it, it is "etcd members postgres s3", each if it is installed. The script prints a line
# for each engine that isn't. STORES_ETCD, STORES_MEMBERS, STORES_POSTGRES and STORES_S3 have their addresses. STORES_AGAIN and STORES_PAUSE are calls of
# this script without the last arguments. It looks for free ports from PORT on, or from a random one.
# (start_etcd and the like are called by their names)
# shellcheck disable=SC2317
set -eu
what=${1:-}
shift || true

# since ID: when a process began; nothing if it has ended, even if no process has waited for it yet.
since() { sed -n 's/^.*) [^Z] //p' "/proc/$1/stat" 2>/dev/null | cut -d ' ' -f 19; }

# process NAME: its number, if it runs and no other process has that number.
process() {
  local id began
  read -r id began 2>/dev/null <"$work/$1.id" && [ -n "$began" ] && [ "$began" = "$(since "$id")" ] && echo "$id"
}

runs() { process "$1" >/dev/null; }

# launch NAME: starts a process by its command line, and waits until it is ready.
launch() {
  local name=$1
  for _ in $(seq 150); do
    if ! runs "$name"; then
      bash -c "exec $(cat "$work/$name.command")" >>"$work/$name.log" 2>&1 </dev/null &
      echo "$! $(since $!)" >"$work/$name.id"
      disown
    fi
    # (a gateway that waits for ever is tried again; a question to Ceph takes seconds on a machine that has much else to do)
    timeout 30 bash -c "$(cat "$work/$name.ready")" >/dev/null 2>&1 && return
    sleep 0.2
  done
  echo "engines.sh: $name doesn't start: $(tail -n 3 "$work/$name.log")" >&2
  exit 1
}

# begin NAME READY COMMAND..: READY is a line for bash that holds once it is ready.
begin() {
  local name=$1
  echo "$2" >"$work/$name.ready"
  shift 2
  printf '%q ' "$@" >"$work/$name.command"
  echo "$name" >>"$work/names"
  launch "$name"
}

# tell NAME VALUE: exports the address of an engine.
tell() {
  export "$1=$2"
  printf 'export %s=%q\n' "$1" "$2" >>"$work/addresses"
}

# at FOLDER: works there.
at() {
  work=$(realpath "$1")
  export CEPH_CONF=$work/ceph/ceph.conf
  touch "$work/names"
}

stop() {
  local ids name
  ids=$(tac "$work/names" | while read -r name; do process "$name" || true; done)
  for id in $ids; do kill -TERM "$id" 2>/dev/null || true; done
  for _ in $(seq 30); do
    for id in $ids; do [ -n "$(since "$id")" ] && break; done || break
    sleep 0.1
  done
  for id in $ids; do kill -KILL "$id" 2>/dev/null || true; done
}

# Finds ports at which no process listens, from a random one on.
port=$((${PORT:-$((20000 + RANDOM % 8000))} - 1))
next_port() {
  while port=$((port + 1)); (exec 3<>"/dev/tcp/127.0.0.1/$port") 2>/dev/null; do :; done
}

# These settings have etcd forget old revisions of the register. Without them the quota of its storage fills.
compacting=(--auto-compaction-mode periodic --auto-compaction-retention 1h)

# has NAME PACKAGE PROGRAM..: reports whether the programs are installed.
has() {
  local name=$1 package=$2
  shift 2
  for program in "$@"; do
    command -v "$program" >/dev/null || { echo "engines.sh: $name isn't tried: $program isn't installed (Debian: $package)"; return 1; }
  done
}

start_etcd() {
  has etcd "etcd-server etcd-client" etcd etcdctl || return 0
  local here peer
  next_port; here=http://127.0.0.1:$port
  next_port; peer=http://127.0.0.1:$port
  begin etcd "ETCDCTL_API=3 etcdctl --endpoints $here endpoint health" etcd --name one --data-dir "$work/etcd" --listen-client-urls "$here" --advertise-client-urls "$here" \
    --listen-peer-urls "$peer" --initial-advertise-peer-urls "$peer" --initial-cluster "one=$peer" --logger zap "${compacting[@]}"
  tell STORES_ETCD "${here#http://}"
}

# Three members of one etcd, as processes member-1 to member-3. One member has no majority, so only the last one is asked.
start_members() {
  has members "etcd-server etcd-client" etcd etcdctl || return 0
  local i all="" clients=() peers=() ready
  for i in 1 2 3; do
    next_port; clients+=("127.0.0.1:$port")
    next_port; peers+=("http://127.0.0.1:$port")
    all+="${all:+,}member-$i=http://127.0.0.1:$port"
  done
  for i in 1 2 3; do
    ready="exec 3<>/dev/tcp/${clients[i - 1]/://}"
    [ "$i" = 3 ] && ready="ETCDCTL_API=3 etcdctl --endpoints ${clients[2]} endpoint health"
    begin "member-$i" "$ready" etcd --name "member-$i" --data-dir "$work/member-$i" --logger zap "${compacting[@]}" --initial-cluster "$all" \
      --listen-client-urls "http://${clients[i - 1]}" --advertise-client-urls "http://${clients[i - 1]}" \
      --listen-peer-urls "${peers[i - 1]}" --initial-advertise-peer-urls "${peers[i - 1]}"
  done
  tell STORES_MEMBERS "$(IFS=,; echo "${clients[*]}")"
}

start_postgres() {
  local programs data=$work/postgres as_user=(env)
  programs=$(dpkg-query -S '*/bin/initdb' 2>/dev/null | sed -n 's|^.*: \(.*\)/initdb$|\1|p' | sort -V | tail -n 1)
  PATH=$PATH:$programs has PostgreSQL postgresql initdb postgres pg_isready || return 0
  next_port
  mkdir "$data"
  if [ "$(id -u)" = 0 ]; then
    # It doesn't run as root.
    chown postgres "$data"
    as_user=(setpriv --reuid postgres --regid postgres --clear-groups)
  fi
  (cd "$work" && "${as_user[@]}" "$programs/initdb" -D "$data" -A trust -U log >"$work/initdb.log" 2>&1)
  begin postgres "$programs/pg_isready -h 127.0.0.1 -p $port -U log" "${as_user[@]}" "$programs/postgres" -D "$data" -p "$port" -c listen_addresses=127.0.0.1 -c "unix_socket_directories=$data" -c max_connections=200
  tell STORES_POSTGRES "host=127.0.0.1 port=$port user=log dbname=postgres sslmode=disable"
}

# One monitor, one OSD and one gateway, without authentication among them.
start_s3() {
  has "S3" "radosgw ceph-mon ceph-osd ceph-mgr" radosgw radosgw-admin ceph-mon ceph-osd ceph-mgr ceph || return 0
  local ceph=$work/ceph name monitor gateway osd
  name=$(cat /proc/sys/kernel/random/uuid)
  osd=$(cat /proc/sys/kernel/random/uuid)
  next_port; monitor=v2:127.0.0.1:$port
  next_port; gateway=127.0.0.1:$port
  mkdir -p "$ceph/mon" "$ceph/osd" "$ceph/mgr" "$ceph/run"
  cat >"$ceph/ceph.conf" <<END
[global]
fsid = $name
mon host = $monitor
mon initial members = a
auth cluster required = none
auth service required = none
auth client required = none
osd pool default size = 1
osd pool default min size = 1
mon allow pool size one = true
osd crush chooseleaf type = 0
osd pool default pg num = 4
osd pool default pgp num = 4
osd pool default pg autoscale mode = off
mon data avail crit = 1
mon max pg per osd = 1000
run dir = $ceph/run
admin socket = $ceph/run/\$name.asok
log file = $work/\$name.log
debug rgw = 0/0
mon data = $ceph/mon
osd data = $ceph/osd
mgr data = $ceph/mgr
osd objectstore = bluestore
bluestore block size = 4294967296
osd memory target = 1000000000
[client.rgw]
rgw frontends = beast endpoint=$gateway
ms mon client mode = crc
END
  monmaptool --create --fsid "$name" --addv a "[$monitor]" "$ceph/monmap" >/dev/null
  ceph-mon -i a --mkfs --monmap "$ceph/monmap"
  begin ceph-mon "ceph -s" ceph-mon -i a -f
  begin ceph-mgr true ceph-mgr -i x -f
  ceph osd new "$osd" >/dev/null
  ceph-osd -i 0 --mkfs --osd-uuid "$osd" 2>/dev/null
  begin ceph-osd "ceph osd crush add osd.0 1 root=default host=h; ceph osd stat | grep -q '1 up'" ceph-osd -i 0 -f
  begin radosgw "exec 3<>/dev/tcp/${gateway/://}" radosgw -n client.rgw -f
  radosgw-admin -n client.rgw user create --uid log --display-name log --access-key log --secret-key secret >/dev/null 2>&1
  tell STORES_S3 "http://log:secret@$gateway"
}

# start_all: starts what ENGINES says, or what was stopped in this folder.
start_all() {
  local began=$SECONDS engines=${ENGINES-etcd members postgres s3} engine name names
  mapfile -t names <"$work/names"
  if [ -n "${names[*]}" ]; then
    for name in "${names[@]}"; do launch "$name"; done
  else
    : >"$work/addresses"
    for engine in $engines; do "start_$engine"; done
    tell STORES_AGAIN "$here/engines.sh again $work"
    tell STORES_PAUSE "$here/engines.sh pause $work"
  fi
  [ -z "$engines" ] || echo "engines.sh: started in $((SECONDS - began)) s"
}

here=$(cd "$(dirname "$0")" && pwd)
case $what:$# in
  run:0) ;;
  run:*)
    work=$(mktemp -d)
    chmod 755 "$work"
    at "$work"
    trap 'stop; rm -rf "$work"' EXIT
    start_all
    "$@"
    exit
    ;;
  start:1)
    mkdir -p "$1"
    at "$1"
    start_all
    exit
    ;;
  stop:1)
    at "$1"
    stop
    exit
    ;;
  again:2)
    at "$1"
    killed=$(process "$2") && kill -KILL "$killed"
    while runs "$2"; do sleep 0.02; done
    launch "$2"
    exit
    ;;
  pause:3)
    at "$1"
    id=$(process "$2")
    stopped="$id $(pgrep -P "$id" | tr '\n' ' ')"
    # Its words are ids.
    # shellcheck disable=SC2086
    kill -STOP $stopped
    sleep "$3"
    # shellcheck disable=SC2086
    kill -CONT $stopped
    exit
    ;;
esac
echo "engines.sh run COMMAND.. | start FOLDER | stop FOLDER | again FOLDER NAME | pause FOLDER NAME SECONDS" >&2
exit 1
