#!/usr/bin/env bash
# Installs the editors and browsers with which the clients are tested, where they are missing: Debian's packages, by apt-get.
#
#     tools/editors.sh [PROGRAM ..]
#
# PROGRAM is nvim (the package neovim), chromium or emacs (with eglot; it is large, so a test that wants it is skipped where it isn't
# there); nvim alone where none is given. The status is 1 where one can't be installed.
set -euo pipefail

packages_of() {
  case "$1" in
    nvim) echo neovim ;;
    chromium) echo chromium ;;
    emacs) echo emacs-nox elpa-eglot ;;
    *) echo "no editor or browser: $1" >&2; return 1 ;;
  esac
}

missing=()
for program in "${@:-nvim}"; do
  words=$(packages_of "$program")
  read -ra packages <<< "$words"
  command -v "$program" > /dev/null || missing+=("${packages[@]}")
done
if [ ${#missing[@]} -eq 0 ]; then
  exit 0
fi
if [ "$(id -u)" -ne 0 ] || ! command -v apt-get > /dev/null; then
  echo "install these packages: ${missing[*]} (as root, by: apt-get install ${missing[*]})" >&2
  exit 1
fi
export DEBIAN_FRONTEND=noninteractive
apt-get update -qq || true
if ! apt-get install -qq -y --no-install-recommends "${missing[@]}" > /dev/null; then
  echo "these packages can't be installed: ${missing[*]}" >&2
  exit 1
fi
