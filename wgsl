#!/usr/bin/env bash
# Runs the commands `wgsl check`, `wgsl layout` and `wgsl ask`, once the program is proved and built.
exec "$(dirname "$(readlink -f "$0")")/scripts/start" wgsl "$@"
