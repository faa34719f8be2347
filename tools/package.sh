#!/usr/bin/env bash
# Makes a tarball and two Debian packages of a program: `attrd` with its man page, the licences of what is built into it, the pages,
# the samples and a systemd unit, which needs the C library alone; and `attrd-hub`, the service in front of it, which needs Python.
#
#     tools/package.sh PROGRAM FOLDER
#
# The packages stand in FOLDER afterwards; the version is that of the file VERSION. A program is refused that isn't known to be
# proved, or was made of other sources than stand here (tools/proved.py).
set -euo pipefail
cd "$(dirname "$0")/.."

# The libraries of the kit that are built into the program, whose licences ask to be handed on.
LIBRARIES=(arrayvec clap indexmap itoa memchr slab smallvec strsim thiserror unicode_ident)
# What the pages link to in the folders of the clients, beside the pages there.
EXAMPLES=(clients/lsp/sample clients/lsp/attrd_lsp/small clients/page/examples)

# Prints what the package's file of licences says.
licences() {
  local kit library file
  kit=$(dirname "$(rt doc)")
  echo "attrd $version: the program, its pages and its samples. Its repository names no licence: ask its authors before you hand it on."
  echo
  echo "Built into the program are these libraries, ported to Rattle, under the licences that follow: ${LIBRARIES[*]}."
  echo "So are the Rattle kit's own libraries (core, std, os), with which no licence comes."
  for library in "${LIBRARIES[@]}"; do
    for file in "$kit/rattle/$library"/LICENSE*; do
      printf '\n---- %s: %s\n\n' "$library" "$(basename "$file")"
      cat "$file"
    done
  done
}

# Prints which packages of Debian have the libraries that the program asks for; a library of another one is refused.
depends() {
  local glibc library others=""
  glibc=$(LC_ALL=C grep -a -o 'GLIBC_[0-9][0-9.]*' "$program" | sed 's/GLIBC_//' | sort -V | tail -n 1)
  for library in $(LD_TRACE_LOADED_OBJECTS=1 "$program" | sed 's/^[[:space:]]*//; s/ .*//'); do
    case $(basename "$library") in
      linux-vdso.so.* | ld-linux* | libc.so.* | libm.so.*) ;;
      libgcc_s.so.*) others=", libgcc-s1" ;;
      *) echo "$program asks for $library, which the package can't name" >&2; return 1 ;;
    esac
  done
  echo "libc6 (>= $glibc)$others"
}

# Prints the control file of the package $1, for the architecture $2, that needs $3; standard input describes it.
control() {
  cat << END
Package: $1
Version: $version
Architecture: $2
Maintainer: attrd <attrd@localhost>
Installed-Size: $(du -ks "$root/$1" | cut -f 1)
Depends: $3
Section: devel
Priority: optional
END
  cat
}

# Puts the package attrd below its folder: the pages lie as in the repository, so that their links lead on.
lay_out_program() {
  local base=$root/attrd doc=$root/attrd/usr/share/doc/attrd file
  install -D -m 755 "$program" "$base/usr/bin/attrd"
  install -d "$base/usr/share/man/man1" "$doc/docs" "$doc/tests/pages"
  gzip -9 -n -c docs/attrd.1 > "$base/usr/share/man/man1/attrd.1.gz"
  install -D -m 644 "tools/package/attrd@.service" "$base/usr/lib/systemd/system/attrd@.service"
  install -m 644 README.md CHANGELOG.md "$doc/"
  install -m 644 docs/*.md docs/*.png docs/*.svg "$doc/docs/"
  install -D -m 644 -t "$doc/tests/pages" tests/pages/*.md
  for file in $(find clients -name README.md) $(find "${EXAMPLES[@]}" -type f -not -name '*.pyc'); do
    install -D -m 644 "$file" "$doc/$file"
  done
  cp -r samples "$doc/samples"
  ln -s samples "$doc/examples"
  licences > "$doc/copyright"
}

# Puts the package attrd-hub below its folder.
lay_out_hub() {
  local base=$root/attrd-hub folder file
  install -D -m 755 tools/package/attrd-hub "$base/usr/bin/attrd-hub"
  install -D -m 644 "tools/package/attrd-hub@.service" "$base/usr/lib/systemd/system/attrd-hub@.service"
  for folder in python hub; do
    for file in $(cd "clients/$folder" && find attrd* -name '*.py'); do
      install -D -m 644 "clients/$folder/$file" "$base/usr/lib/attrd-hub/$file"
    done
  done
  install -d "$base/usr/share/doc/attrd-hub"
  echo "attrd-hub $version is a part of attrd: see /usr/share/doc/attrd/copyright." > "$base/usr/share/doc/attrd-hub/copyright"
}

# Ends with a failure where a link of an installed page leads nowhere.
follow_links() {
  local page link missing=0
  while IFS= read -r page; do
    for link in $(grep -o '](\([^)# ]*\)' "$page" | sed 's/^](//' | grep -v '^[a-z]*:' | sort -u || true); do
      [ -e "$(dirname "$page")/$link" ] || { echo "${page#"$root"}: it links to $link, which isn't in the package" >&2; missing=1; }
    done
  done < <(find "$root" -name '*.md')
  return $missing
}

# Makes the Debian package $1 out of its folder.
debian() {
  local package=$folder/$1_${version}_$2.deb script
  for script in postinst prerm postrm; do
    [ ! -e "tools/package/$1.$script" ] || install -D -m 755 "tools/package/$1.$script" "$root/$1/DEBIAN/$script"
  done
  dpkg-deb --root-owner-group --build "$root/$1" "$package" > /dev/null
  echo "$package"
}

if [ $# -ne 2 ] || [ ! -x "$1" ]; then
  echo "tools/package.sh PROGRAM FOLDER" >&2
  exit 2
fi
program=$1
folder=$2
python3 -B -m tools.proved require "$program"
version=$(cat VERSION)
root=$(mktemp -d)
trap 'rm -rf "$root"' EXIT

lay_out_program
lay_out_hub
chmod -R u=rwX,go=rX "$root"
follow_links
mkdir -p "$folder"
name=attrd-$version-$(uname -m)
tar -C "$root/attrd" --owner=0 --group=0 --transform "s,^\./,$name/," -czf "$folder/$name.tar.gz" ./usr
echo "$folder/$name.tar.gz"
if ! command -v dpkg-deb > /dev/null; then
  echo "no dpkg-deb here: the Debian packages aren't made" >&2
  exit 0
fi
needed=$(depends)
machine=$(dpkg --print-architecture)
mkdir "$root/attrd/DEBIAN" "$root/attrd-hub/DEBIAN"
control attrd "$machine" "$needed" > "$root/attrd/DEBIAN/control" << 'END'
Description: attribute tree server in the JastAdd profile
 It holds a syntax tree, answers questions about it by attributes and their
 equations while clients edit it, and keeps the values that an edit leaves
 right. Each function of it is proved.
END
control attrd-hub all "attrd (= $version), python3 (>= 3.9)" > "$root/attrd-hub/DEBIAN/control" << 'END'
Description: service in front of attrd, for many clients at once
 It starts attrd, serves any number of clients over a socket, and keeps the
 edits that were accepted in a journal, from which it begins again after a
 crash.
END
debian attrd "$machine"
debian attrd-hub all
