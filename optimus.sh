#!/usr/bin/env bash
# Runs the proved program with these words, such as: ./optimus.sh plan FOLDER. The exit status is the program's own.
# The program is proved and built first, where it is not yet; a build that fails ends with status 125.
set -u
# Links are followed, so that a link to this file works from any folder.
top=$(dirname -- "$(readlink -f -- "$0")") || exit 125
crate=$top/crates/optimus_cli
log=$crate/out/build.log
mkdir -p -- "$crate/out" || exit 125
# The build also runs the program, here without words, which it refuses.
(cd -- "$crate" && rt run) >"$log" 2>&1
proved='^logic=proved|nothing has changed since the last proved build'
if ! grep -Eq "$proved" "$log" || [ ! -x "$crate/out/optimus_cli" ]; then
    cat -- "$log" >&2
    exit 125
fi
exec "$crate/out/optimus_cli" "$@"
