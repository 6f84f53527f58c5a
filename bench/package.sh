#!/usr/bin/env bash
# Makes a Debian package of what `make install` installs: bench/package.sh [FOLDER] puts it into FOLDER, or here. The programs are proved and built
# first where they were not. Asks for dpkg-deb.
set -eu
folder=$(realpath "${1:-.}")
cd "$(dirname "$0")/.."
version=$(sed -n 's/^    "\([^"]*\)"$/\1/p' crates/program_words/src/versions.rt)
root=$(mktemp -d)
trap 'rm -rf "$root"' EXIT
chmod 755 "$root"
make install DESTDIR="$root" PREFIX=/usr
gzip -9n "$root"/usr/share/man/man*/*
mkdir "$root/DEBIAN"
cat >"$root/DEBIAN/control" <<END
Package: kothlaim
Version: $version
Architecture: $(dpkg --print-architecture)
Maintainer: $(id -un) <$(id -un)@localhost>
Depends: libc6
Section: admin
Priority: optional
Description: raw NAND dies: checker, laboratory's tools, a die in a file as a disk
 nandctl reads, mounts, checks and serves raw images of one NAND die; nandlab
 tells of dumps, mends and merges them; nanddisk serves a die in a file by NBD.
END
dpkg-deb --root-owner-group --build "$root" "$folder"
