#!/usr/bin/env bash
# Holds include/linefeijoa.h and bindings/rust against the exported functions; calls each; runs the example in C.
# usage: run.sh
# LF_LIBRARY is a folder with another libexports.a; else the proved one is built.
set -euo pipefail
here=$(cd "$(dirname "${BASH_SOURCE[0]}")" && pwd)
root=$(cd "$here/../.." && pwd)
if [ -z "${LF_LIBRARY:-}" ]; then
  bash "$root/tools/library/build.sh"
fi
library=$(cd "${LF_LIBRARY:-$root/target/staticlib}" && pwd)
built=$root/target/header
mkdir -p "$built"
cd "$root"
strict=(-Wall -Wextra -pedantic -Werror -O1 -I include)

# The header alone, and what includes it twice.
for twice in '' '#include "linefeijoa.h"'; do
  printf '#include "linefeijoa.h"\n%s\n' "$twice" | gcc -std=c99 "${strict[@]}" -fsyntax-only -x c -
  printf '#include "linefeijoa.h"\n%s\n' "$twice" | g++ -std=c++11 "${strict[@]}" -fsyntax-only -x c++ -
done

gcc -std=c99 "${strict[@]}" -o "$built/check" tools/header/*.c -L "$library" -lexports -pthread
g++ -std=c++11 "${strict[@]}" -x c++ -o "$built/check-c++" tools/header/*.c -L "$library" -lexports -pthread
samples=(tools/oracle/sample/lists.txt tools/oracle/sample/small.txt)
echo 'C99:'
"$built/check" "${samples[@]}" >"$built/seen" || { tail -2 "$built/seen"; exit 1; }
tail -2 "$built/seen"
echo 'C++11:'
"$built/check-c++" "${samples[@]}" >"$built/seen-c++" || { tail -2 "$built/seen-c++"; exit 1; }
tail -2 "$built/seen-c++"

python3 tools/library/probes.py "$library/libexports.a"
# The header says that at most memcpy and memset come from outside.
outside=$(nm -u "$library/libexports.a" | awk '$1 == "U" && $2 != "memcpy" && $2 != "memset" { print $2 }')
[ -z "$outside" ] || { echo "the archive needs from outside: $outside"; exit 1; }
nm -g --defined-only "$library/libexports.a" >"$built/symbols"
python3 tools/header/agree.py "$built/seen" "$built/symbols"

# The first example, and the second: document 01's listing and what the desk says; a claim whose ledger has to grow; refusals.
gcc -std=c99 "${strict[@]}" -o "$built/first" examples/c/first.c -L "$library" -lexports
[ "$("$built/first")" = 'yes 5, passed 6' ]
gcc -std=c99 "${strict[@]}" -o "$built/claim" examples/c/claim.c -L "$library" -lexports
"$built/claim" 'entails (s z) (at0 z) ft' | diff - <(cat <<'END'
0 lt.z [] (lt z (s z))
1 interval.dim [0] (interval (s z) (dim z))
2 face.0 [1] (face (s z) (at0 z))
3 face.ft [] (face (s z) ft)
4 cover.top [] (cover (fc (at0 z) fnil) ft)
5 entails.checked [2,3,4] (entails (s z) (at0 z) ft)
yes 5
passed 6
END
)
large=$(python3 - <<'END'
def number(n):
    return "(s " * n + "z" + ")" * n


def row(dims):
    faces = [f"(at0 {number(n)})" for n in dims]
    return "(fand " * 15 + faces[0] + "".join(f" {f})" for f in faces[1:])


print("entails", number(255), row(range(16)), row(range(15, -1, -1)))
END
)
"$built/claim" "$large" | tail -2 | diff - <(printf 'yes 395\npassed 396\n')
for refused in '8 entails z ff (at0 z)' '9 entails (s z) ft (for (at0 z) (at1 z))' '11 entails z ff'; do
  status=0
  said=$("$built/claim" "${refused#* }") || status=$?
  [[ $status = 1 && $said = *"refused ${refused%% *}: "* ]] || { echo "claim '${refused#* }': $said"; exit 1; }
done
status=0
said=$("$built/claim" 'entails (s (s z)) (for (at0 z) (at1 (s z))) (at0 z)') || status=$?
[[ $status = 1 && $said = *$'refused 9: the implication does not hold\nit does not hold at _1\npassed '* ]] || { echo "$said"; exit 1; }
echo 'the examples in C print what they should'
