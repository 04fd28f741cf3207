#!/bin/sh
# The layout as `rt ci` asks for it, of one crate: layout.sh CRATE. What is not in it is laid out, so run it on a copy.
said=$(cd "$1" && rt fmt) || { echo "$said"; exit 1; }
[ -z "$said" ] || { echo "$said" | sed -n "s|^rt: formatted \(.*\)|$1: \1 is not in the layout|p"; exit 1; }
