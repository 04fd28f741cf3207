#!/usr/bin/env bash
# Faults planted into the parts that are fuzzed, each of which the kept seeds must find: tests/fuzz/faults.sh. By hand, on x86-64. The copy
# that they are planted into stands in target/fuzz-faults.
set -u
cd "$(dirname "$0")/../.." || exit 1
. tools/outside-env.sh
export ARCHIVE
copy=target/fuzz-faults
rm -rf $copy
mkdir -p $copy
cp -R cli include tests bindings tools $copy
failed=0
planted() { # planted TARGET FILE OLD NEW: the text OLD stands there once
    python3 - "$copy/$2" "$3" "$4" <<'END' || exit 1
import sys
path, old, new = sys.argv[1:]
text = open(path).read()
assert text.count(old) == 1, f"{path}: {text.count(old)} times: {old}"
open(path, "w").write(text.replace(old, new))
END
    if (cd $copy && tests/fuzz/run.sh 0 "$1") >$copy/log 2>&1; then
        echo "NOT FOUND: $2: $3"
        failed=1
    else
        grep -q 'FAILED on its seeds' $copy/log && echo "found: $2: $3" || { tail -n 3 $copy/log; failed=1; }
    fi
    cp "$2" "$copy/$2"
}
planted program cli/file.c 'if (left < IVF_FRAME_HEAD) {' 'if (0) {'
planted program cli/record.c 'while (t->at < t->end && memchr(' 'while (memchr('
planted program cli/html.c 'if ((p[i] & 0xC0) != 0x80) return 0;' 'if (!p[0]) return 0;'
planted program cli/save.c 'if (!good && s->name) remove(s->name);' ''
planted header include/hookbarley.h 'm->v = m->u + n.u;' 'm->v = m->u + n.u + 1;'
planted rust bindings/rust/src/lib.rs 'Ok(start..start + len)' 'Ok(start..start + len + 1)'
[ $failed -eq 0 ] && echo "faults: all found"
exit $failed
