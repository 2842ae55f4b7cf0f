#!/usr/bin/env bash
# Builds and tests the Go part: build.sh test [PACKAGE] [WORD..] | fuzz [SECONDS] | vet | build | modules.
# Go and the modules are those that `make deps` fetched, or a later Go and a module proxy's modules.
set -eu
cd "$(dirname "$0")/.."
deps/fetch.sh
# shellcheck source=deps/env.sh
. deps/env.sh
what=${1:-test}
shift || true
export GO111MODULE=on GOTOOLCHAIN=local GOWORK=off CGO_ENABLED=1
programs=(ctserve ctaudit ctload ctwitness ctwatch)
main_packages=("${programs[@]/#/./cmd/}")
# The tests stop nodes and signers between what they do, for which no program is built (phases_hooked.go). TAGS adds the tags of a build option
# (bindings/go/wagtenib/README.md).
tags=${TAGS:-}
case $what in test | vet) tags=phases${tags:+,$tags} ;; esac
# vet must not run with -trimpath: Go's cache would then give it the paths of another checkout's files, and that checkout may be gone.
trimmed=-trimpath
[ "$what" != vet ] || trimmed=
export GOFLAGS="$trimmed -buildvcs=false -tags=$tags -p=${PROCESSORS:-$(nproc)}"
case $what in
  test)
    # (the words of go test begin with -)
    packages=(./bindings/... ./cmd/... ./internal/... ./tests/clients/tlog)
    [[ ${1:--} == -* ]] || { packages=("./$1"); shift; }
    go test -count=1 "$@" "${packages[@]}"
    ;;
  vet)
    # (each line is a file in Go)
    unformatted=$(find bench bindings cmd deps internal release tests -name '*.go' -exec gofmt -l {} +)
    [ -z "$unformatted" ] || { echo "gofmt would change $unformatted" >&2; exit 1; }
    go vet ./...
    # (staticcheck has this name in Debian)
    for staticcheck in staticcheck go-staticcheck ""; do
      ! command -v "$staticcheck" >/dev/null || break
    done
    if [ -n "$staticcheck" ]; then
      "$staticcheck" ./...
    else
      echo "build.sh: staticcheck isn't run, which isn't here (make deps fetches it)."
    fi
    ;;
  build)
    mkdir -p cmd/out
    # (the commit, and + where files differ from it; none where git or its folder isn't there)
    commit=$(git rev-parse --short=12 HEAD 2>/dev/null) || commit=
    [ -z "$commit" ] || git diff --quiet HEAD -- cmd internal bindings VERSION go.mod || commit+=+
    of=wagtenib/internal/command/version
    go build -o cmd/out -ldflags "-X $of.number=$(cat VERSION) -X $of.commit=$commit" "${main_packages[@]}"
    ;;
  modules)
    # the modules that are linked into the programs, with their versions
    go list -deps -f '{{with .Module}}{{if not .Main}}{{.Path}} {{with .Replace}}{{.Version}}{{else}}{{.Version}}{{end}}{{end}}{{end}}' "${main_packages[@]}" | sort -u
    ;;
  fuzz)
    for target in FuzzFinalIssuer FuzzChain FuzzRoots; do
      go test ./internal/log/chain -run '^$' -fuzz "^$target\$" -fuzztime "${1:-60}s" -fuzzminimizetime 1s -parallel "${PROCESSORS:-2}"
    done
    for target in FuzzHandlers FuzzConnections; do
      go test ./internal/log/httpd -run '^$' -fuzz "^$target\$" -fuzztime "${1:-60}s" -fuzzminimizetime 1s -parallel "${PROCESSORS:-2}"
    done
    go test ./internal/ct -run '^$' -fuzz '^FuzzReadDataTile$' -fuzztime "${1:-60}s" -fuzzminimizetime 1s -parallel "${PROCESSORS:-2}"
    # (what ctwatch reads: certificates, watch lists, answers of logs, log lists, and settings)
    for target in watch/namesearch/FuzzSearch watch/namesearch/FuzzLists watch/alert/FuzzSafe watch/watchstore/FuzzKeep watch/FuzzLogAnswers watch/loglist/FuzzParse; do
      go test "./internal/${target%/*}" -run '^$' -fuzz "^${target##*/}\$" -fuzztime "${1:-60}s" -fuzzminimizetime 1s -parallel "${PROCESSORS:-2}"
    done
    go test ./cmd/ctwatch -run '^$' -fuzz '^FuzzSettings$' -fuzztime "${1:-60}s" -fuzzminimizetime 1s -parallel "${PROCESSORS:-2}"
    # (each decoder of libwagtenib)
    for target in $(sed -n 's/^func \(Fuzz[A-Za-z]*\)(.*/\1/p' bindings/go/wagtenib/fuzz_*_test.go); do
      go test ./bindings/go/wagtenib -run '^$' -fuzz "^$target\$" -fuzztime "${1:-60}s" -fuzzminimizetime 1s -parallel "${PROCESSORS:-2}"
    done
    ;;
  *)
    echo "build.sh test [PACKAGE] [WORD..] | fuzz [SECONDS] | vet | build | modules" >&2
    exit 1
    ;;
esac
