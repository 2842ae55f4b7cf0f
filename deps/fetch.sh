#!/usr/bin/env bash
# Fetches what the Go part is built with: fetch.sh [COMMAND..] (make deps). If nothing is missing, it does nothing.
#
# Go 1.24, the sources of the modules that go.mod requires, SQLite, gopls and staticcheck are those of Debian 13. apt fetches the packages from the mirror in
# this machine's own apt sources, with lists and folders of its own, and checks Debian's signatures. They are unpacked in a cache (env.sh says where), and none
# of them is installed. The checkout gets a link to the cache, vendor, by which the go command, gopls and staticcheck find the modules without a setting.
# If the modules come from a module proxy (with go.sum), no vendor folder is made.
#
# Only a C compiler, python3 and each COMMAND are installed, if they are missing. On a terminal fetch.sh asks before. Without one it installs them if that
# asks nothing, by root or sudo. It never upgrades or removes what is installed, except with SETUP=yes. With SETUP=no it neither installs nor fetches: it says
# what is missing, and fails.
set -eu -o pipefail
cd "$(dirname "$0")/.."
. deps/env.sh
keys=/usr/share/keyrings/debian-archive-keyring.gpg
tools="golang-1.24-go golang-1.24-src go-staticcheck gopls libnspr4-dev libnss3-dev libsqlite3-dev"

fail() {
  echo "deps: $1" >&2
  exit 1
}

# Installs the packages $* of this machine's own Debian.
install_packages() {
  local as="" planned line answer
  line="apt-get install --yes --no-install-recommends $*"
  [ "$(id -u)" = 0 ] || as="sudo "
  command -v apt-get >/dev/null || fail "$* must be installed, and there is no apt-get: install them by this system's own packages"
  [ "${SETUP:-}" != no ] || fail "$* must be installed: $as$line"
  if [ -t 0 ] && [ "${SETUP:-}" != yes ]; then
    read -r -p "$as$line    Run this now? [y/N] " answer
    [[ $answer == [yY]* ]] || fail "$* must be installed: $as$line"
  elif [ -n "$as" ]; then
    sudo -n true 2>/dev/null || fail "$* must be installed, and sudo asks for a password: $as$line"
    as="sudo -n "
  fi
  echo "$as$line" >&2
  if ! planned=$(apt-get install --simulate --no-install-recommends "$@" 2>/dev/null); then
    # (as is a command, or none)
    # shellcheck disable=SC2086
    ${as}apt-get update </dev/null >&2 || true
    planned=$(apt-get install --simulate --no-install-recommends "$@") || fail "apt-get can't install $*"
  fi
  if [ "${SETUP:-}" != yes ] && grep -qE '^(Inst [^ ]+ \[|Remv )' <<<"$planned"; then
    fail "this would upgrade or remove packages that are installed ($(grep -E '^(Inst [^ ]+ \[|Remv )' <<<"$planned" | cut -d ' ' -f 2 | paste -sd ' ')), so nothing is done. To do it: $as$line"
  fi
  local run="${as}env DEBIAN_FRONTEND=noninteractive apt-get -o DPkg::Lock::Timeout=300"
  # (the words of run are a command)
  # shellcheck disable=SC2086
  $run install --yes --no-install-recommends "$@" </dev/null >&2 && return
  echo "apt-get update, and once more" >&2
  # shellcheck disable=SC2086
  { $run update && $run install --yes --no-install-recommends "$@"; } </dev/null >&2 || fail "apt-get couldn't install $*"
}

# Prints the lines of apt's sources for Debian 13, from the mirrors of Debian that this machine's apt knows.
sources() {
  local codename uri suite
  codename=$(. /etc/os-release && echo "${VERSION_CODENAME:-}")
  apt-get update --print-uris | sed -n "s|^'\([^']*/\)dists/\([^/']*\)/InRelease'.*|\1 \2|p" | while read -r uri suite; do
    case $suite in
      "$codename" | stable | oldstable | testing | unstable | sid) suite=trixie ;;
      "$codename-updates" | stable-updates | oldstable-updates) suite=trixie-updates ;;
      "$codename-security" | stable-security | oldstable-security) suite=trixie-security ;;
      *) continue ;;
    esac
    echo "deb [signed-by=$keys] $uri $suite main"
  done | sort -u
}

# Has apt fetch the packages into the folder $1, and unpacks them there.
fetch() {
  local made=$1 packages
  mkdir -p "$made/apt/lists/partial" "$made/apt/archives/partial" "$made/packages"
  sources >"$made/apt/sources.list"
  grep -q ' trixie main$' "$made/apt/sources.list" || fail "apt's sources name no mirror of Debian, from which to fetch Debian 13's packages"
  : >"$made/apt/status"
  cat >"$made/apt/settings" <<END_OF_SETTINGS
Dir::Etc::sourcelist "$made/apt/sources.list";
Dir::Etc::sourceparts "-";
Dir::Etc::preferences "-";
Dir::Etc::preferencesparts "$made/apt/archives";
Dir::State::lists "$made/apt/lists";
Dir::State::status "$made/apt/status";
Dir::Cache "$made/apt";
Acquire::Languages "none";
APT::Sandbox::User "";
APT::Update::Error-Mode "any";
#clear APT::Update::Post-Invoke;
END_OF_SETTINGS
  packages=$(sed 's/^#.*//; s/[* ].*//' deps/packages.txt)
  # (each word is a package)
  # shellcheck disable=SC2086
  (
    export APT_CONFIG="$made/apt/settings" LC_ALL=C.UTF-8
    apt-get -qq update
    cd "$made/packages"
    apt-get -qq download $tools $packages
  ) >&2
  local package
  for package in "$made"/packages/*.deb; do
    dpkg-deb -x "$package" "$made"
    # (these are fields of dpkg-deb's)
    # shellcheck disable=SC2016
    dpkg-deb -W --showformat '${Package} ${Version}\n' "$package"
  done >"$made/versions"
  rm -r "$made/packages" "$made/apt"
  mkdir "$made/bin" "$made/tools"
  ln -s ../usr/lib/go-1.24/bin/go ../usr/lib/go-1.24/bin/gofmt "$made/bin"
  ln -s ../usr/bin/gopls ../usr/bin/go-staticcheck "$made/tools"
  ln -s go-staticcheck "$made/tools/staticcheck"
  deps/vendor.py "$made"
  rm -r "$made/usr/share/gocode"
}

# Reports whether the go command finds all packages that are imported. It isn't asked without a vendor folder and go.sum: it would leave locks in GOPATH.
has_modules() {
  [ -e vendor/modules.txt ] || [ -e go.sum ] || return 1
  is_new_go go && GOWORK=off GOPROXY=off go list -deps -test ./... >/dev/null 2>&1
}

missing=()
command -v "${CC:-gcc}" >/dev/null || missing+=(gcc libc6-dev)
for command in python3 "$@"; do
  command -v "$command" >/dev/null || missing+=("$command")
done
[ ${#missing[@]} = 0 ] || install_packages "${missing[@]}"
# A link into another cache is of another go.mod.
if [ -L vendor ] && [ "$(readlink vendor)" != "$deps_vendor" ]; then
  if [ -d "$deps_vendor" ]; then ln -sfn "$deps_vendor" vendor; else rm vendor; fi
fi
has_modules && exit
if [ ! -d "$deps_cache" ]; then
  [ "${SETUP:-}" != no ] || fail "Go 1.24 or its modules aren't here: make deps fetches them into $deps_cache"
  if [ "$(. /etc/os-release && echo "$ID")" != debian ] || ! command -v apt-get >/dev/null; then
    fail "this isn't a Debian: install Go 1.24 and a C compiler, and have go fetch the modules (GOFLAGS=-mod=mod)"
  fi
  [ -e $keys ] || fail "$keys isn't there, with which Debian's packages are checked (Debian: debian-archive-keyring)"
  echo "Fetching Go 1.24 and the modules from Debian 13, some 80 MB, into $deps_cache" >&2
  mkdir -p "${deps_cache%/*}"
  made=$(mktemp -d "$deps_cache.XXXXXX")
  trap 'rm -rf "$made"' EXIT
  fetch "$made"
  chmod 755 "$made"
  mv -T "$made" "$deps_cache" 2>/dev/null || [ -d "$deps_cache" ]
fi
[ ! -e vendor ] || [ -L vendor ] || fail "the folder vendor is in the way of the link to $deps_vendor: move it away"
ln -sfn "$deps_vendor" vendor
. deps/env.sh
has_modules || { GOWORK=off GOPROXY=off go list -deps -test ./... >/dev/null; fail "the modules aren't whole: remove $deps_cache, and run this again"; }
