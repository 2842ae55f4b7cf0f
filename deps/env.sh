#!/usr/bin/env bash
# Puts Go 1.24, gopls and staticcheck on the PATH: of a script in bash by `. deps/env.sh`, of any shell by `eval "$(deps/env.sh)"`.
# Go is the Go that is on the PATH, if it is 1.24 or later, and otherwise Debian 13's, in the cache that fetch.sh makes. deps_cache is the folder of the
# cache, and deps_vendor the vendor folder in it. The cache's name has a digest of what it is made from, so a change of go.mod makes a new cache.
deps_top=$(cd "$(dirname "${BASH_SOURCE[0]}")/.." && pwd)
export HOME="${HOME:-$(getent passwd "$(id -u)" | cut -d: -f6)}"
deps_cache=${XDG_CACHE_HOME:-$HOME/.cache}/wagtenib/debian-13-$(cd "$deps_top" && cat go.mod deps/packages.txt deps/vendor.py deps/fetch.sh | sha256sum | cut -c 1-12)

# Reports whether the command $1 is Go 1.24 or later.
is_new_go() {
  local version
  version=$(cd / && GOTOOLCHAIN=local "$1" env GOVERSION 2>/dev/null) || return 1
  [[ $version =~ ^go1\.([0-9]+) ]] && [ "${BASH_REMATCH[1]}" -ge 24 ]
}

# If Debian's libsqlite3-dev is installed, SQLite is linked from there, and otherwise statically from the cache.
deps_vendor=$deps_cache/vendor
[ "$(dpkg-query -W -f '${db:Status-Status}' libsqlite3-dev 2>/dev/null)" = installed ] || deps_vendor+=-static-sqlite

# The modules come from the vendor folder. So GOPATH gets nothing, not even the empty folders that the go command makes for a module cache.
[ -e "$deps_top/go.sum" ] || export GOMODCACHE="$deps_cache/modules"

# The cache has gopls and staticcheck too: those that are installed come before them.
is_new_go go || PATH=$deps_cache/bin:$PATH
export PATH="$PATH:$deps_cache/tools"
[ "${BASH_SOURCE[0]}" != "$0" ] || echo "export PATH=\"$PATH\""
