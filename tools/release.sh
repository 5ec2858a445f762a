#!/usr/bin/env bash
# Makes vest-VERSION.tar.gz, with all that tools/install.sh copies, and its sum beside it. From the same commit it has the same bytes: names are
# sorted, and times are the commit's.
#
# tools/release.sh VERSION        behind `rt run` in crates/vest
set -euo pipefail
version=${1:?"usage: tools/release.sh VERSION"}
top=$(cd "$(dirname "$0")/.." && pwd)
name=vest-$version
room=$(mktemp -d)
trap 'rm -rf "$room"' EXIT
"$top/tools/install.sh" "$room/$name"
tar -C "$room" --sort=name --owner=0 --group=0 --numeric-owner --mtime="@$(git -C "$top" log -1 --format=%ct)" -cf - "$name" | gzip -n > "$name.tar.gz"
sha256sum "$name.tar.gz" > "$name.tar.gz.sha256"
