#!/bin/sh
# symbols.sh [ARCHIVE]: holds include/corvezan.h to the library for C (`make` makes it). Fails unless
#   - the archive defines just the functions that the header declares, and no other name that a program could clash with;
#   - it has no data that can be written, and needs nothing from outside but memcpy and memset;
#   - each declaration has the result and the parameters of the function's source (tools/declarations.py).
set -eu
cd "$(dirname "$0")/.."
archive=${1:-target/staticlib/libcapi.a}
names() { nm "$archive" | awk -v kinds="$1" 'NF > 1 && index(kinds, $(NF - 1)) { print $NF }' | sort -u; }

declared=$(python3 tools/declarations.py --names)
global=$(names TDBCRVWG)
needed=$(names U)
for name in $global; do needed=$(printf '%s\n' "$needed" | grep -vx "$name" || true); done
needed=$(printf '%s\n' "$needed" | grep -vxE 'mem(cpy|set)|' || true)
written=$(names DdBbCcGgSs)

bad=0
say() { echo "symbols: $1" >&2; bad=1; }
[ "$global" = "$declared" ] || {
    printf '%s\n' "$global" >"${TMPDIR:-/tmp}/symbols.$$"
    printf '%s\n' "$declared" | diff "${TMPDIR:-/tmp}/symbols.$$" - >&2 || true
    rm -f "${TMPDIR:-/tmp}/symbols.$$"
    say 'archive (<) and header (>) differ'
}
[ -z "$needed" ] || say "the archive needs: $needed"
[ -z "$written" ] || say "the archive has data that can be written: $written"
python3 tools/declarations.py || bad=1
[ $bad -eq 0 ] && echo "symbols: $(printf '%s\n' "$declared" | wc -l) functions, header and archive agree"
exit $bad
