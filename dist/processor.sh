#!/bin/sh
# Prints which file of this folder has the code for this machine's processor.
set -eu
here=$(cd "$(dirname "$0")" && pwd)
case $(uname -m) in
  x86_64) echo "$here/libwagtenib_linux_amd64.s" ;;
  aarch64) echo "$here/libwagtenib_linux_arm64.s" ;;
  *) echo "dist/ has code for x86_64 and aarch64, and this machine is $(uname -m) (make link, with the Rattle kit, builds libwagtenib)" >&2; exit 1 ;;
esac
