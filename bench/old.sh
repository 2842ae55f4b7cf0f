#!/usr/bin/env bash
# Builds the service of commit 9802f24a, for peers.py --before: old.sh FOLDER builds it in FOLDER/out.
# That ctserve asks four programs of proved code, each over pipes: cttile, ctnode, ctguard and ctproof. Commit 197a39a1 keeps the code of these, which
# is the same as in 9802f24a, as assembly, so that a C compiler builds them (a proof of 9802f24a takes 42 minutes of a processor). Debian's packages of Go libraries, which the service
# needs, are downloaded by apt and unpacked in FOLDER. Nothing is installed. Go is the one that builds today's service (deps/).
set -eu -o pipefail
here=$(cd "$(dirname "$0")/.." && pwd)
[ $# = 1 ] || { echo "old.sh FOLDER" >&2; exit 1; }
mkdir -p "$1/packages" "$1/libraries" "$1/gopath/src/wagtenib" "$1/out"
folder=$(cd "$1" && pwd)
for pair in "9802f24a old" "197a39a1 dist"; do
  mkdir -p "$folder/${pair#* }"
  git -C "$here" archive "${pair% *}" | tar -x -C "$folder/${pair#* }"
done
"$folder/dist/dist/programs.sh" "$folder/dist/out"
cp "$folder/dist/out/bin/programs" "$folder/out/"
for name in cttile ctnode ctguard ctproof; do ln -sf programs "$folder/out/$name"; done
wanted="libsqlite3-dev golang-github-mattn-go-sqlite3-dev golang-github-lib-pq-dev golang-etcd-server-dev golang-github-minio-minio-go-v7-dev
  golang-github-prometheus-client-golang-dev golang-github-thalesignite-crypto11-dev golang-golang-x-crypto-dev golang-golang-x-mod-dev golang-golang-x-sync-dev"
# (each word is a package)
# shellcheck disable=SC2086
packages=$(apt-get install --simulate --no-install-recommends $wanted | sed -n 's/^Inst \(golang-[^ ]*-dev\|libsqlite3-dev\) .*/\1/p')
# shellcheck disable=SC2086
[ -z "$packages" ] || (cd "$folder/packages" && apt-get download $packages)
for package in "$folder"/packages/*.deb; do dpkg-deb -x "$package" "$folder/libraries"; done
ln -sfn "$folder/old/service" "$folder/gopath/src/wagtenib/service"
# shellcheck source=/dev/null
. "$here/deps/env.sh"
include=$(find "$folder/libraries" -name sqlite3.h -printf '%h\n' | head -n 1)
library=$(find "$folder/libraries" -name libsqlite3.a -printf '%h\n' | head -n 1)
export GO111MODULE=off GOPATH=$folder/gopath:$folder/libraries/usr/share/gocode:/usr/share/gocode GOPROXY=off GOTOOLCHAIN=local CGO_ENABLED=1 GOFLAGS="-trimpath -tags=libsqlite3"
[ -z "$include" ] || export CGO_CFLAGS="-O2 -g -I$include" CGO_LDFLAGS="-L$library"
cd "$folder/old/service"
go build -o "$folder/out" wagtenib/service/ctserve
