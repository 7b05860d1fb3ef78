#!/usr/bin/env bash
# Tries the edits of crates/NAME/mistakes/, each a believable mistake in the crate's code, which the prover must refuse (try_edits.py: many in
# one check), and those of crates/NAME/mistakes/by_test/, which no contract meets, so that a test must fail in one of the crates of tests that
# use the crate, or else a row of tests/rows over the program, compiled with the mistake; of the crates given, else of all.
# It changes no file of the repository but what checks keep in out/, prints a line an edit, and last how many were refused; its status is 1
# where one wasn't. Usage: ./mistakes.sh [NAME ..], or make mistakes [CRATE="NAME .."]. It needs python3.
set -euo pipefail
cd "$(dirname "$0")"
names=("$@")
[ $# -gt 0 ] || for folder in crates/*/mistakes; do [ ! -d "$folder" ] || names+=("$(basename "$(dirname "$folder")")"); done
total=0
for name in "${names[@]}"; do
    [ -d "crates/$name/mistakes" ] || { echo "mistakes: crates/$name has no folder mistakes" >&2; exit 2; }
    total=$((total + $(find "crates/$name/mistakes" -name '*.edit' | wc -l)))
done

top=$PWD
rows_are_well=
room=$(mktemp -d)
trap 'rm -rf "$room"' EXIT
python3 try_edits.py "${names[@]}" | tee "$room/tried" || true
mkdir "$room/copy"
tar -c --exclude=./.git --exclude=./crates/*/out . | tar -x -C "$room/copy"
cd "$room/copy"

# makes an edit in the files of the folder that it runs in
make_edit() {
    python3 - "$1" <<'end'
import sys
lines = [line.rstrip("\n").split(": ", 1) for line in open(sys.argv[1], encoding="utf-8") if line.strip()]
path = lines[0][1]
text = open(path, encoding="utf-8").read()
for old, new in zip(lines[1::2], lines[2::2]):
    if (old[0], new[0]) != ("old", "new") or text.count(old[1]) != 1:
        sys.exit(f"{sys.argv[1]}: it can't be made")
    text = text.replace(old[1], new[1])
open(path, "w", encoding="utf-8").write(text)
end
}

# the crates of tests whose line in crates.txt names a crate
tests_of() {
    sed -nE "s/^(test_\w+)( [^:]*)?:(.* )?$1( .*)?\$/\1/p" crates.txt
}

# whether the rows of a repository pass over the program that was compiled
rows_pass() {
    DNSD=$room/program/dnsd ROW_SECONDS=100 "$1/tests/rows.sh" >/dev/null
}

# whether a row fails over the program with an edit, where none fails without it; that is tried once
rows_fail() {
    mkdir -p "$room/program"
    if [ -z "$rows_are_well" ]; then
        rows_are_well=no
        ! { "$top/tests/compile.sh" "$room/program" >/dev/null && rows_pass "$top"; } || rows_are_well=yes
    fi
    [ "$rows_are_well" = yes ] && tests/compile.sh "$room/program" >/dev/null && ! rows_pass "$PWD"
}

# tries an edit of a crate by the tests of other crates, and then by rows: one of them must fail, and the edited crate must compile
try_by_test() {
    local name=$1 edit=$2 label said='' status='NOT REFUSED' made=no tests
    label="by_test $name/$(basename "$edit")"
    cp -a "crates/$name/src" "$room/src"
    if (cd "crates/$name" && make_edit "$edit"); then
        made=yes
        for tests in $(tests_of "$name"); do
            said=$(cd "crates/$tests" && rt try --test 2>&1 || true)
            [[ $said != *'test result: FAILED'* ]] || { status='refused, as it must be' && break; }
        done
    fi
    if [ "$made $status" = 'yes NOT REFUSED' ] && [[ $said != *error* ]] && rows_fail; then
        status='refused, as it must be (by a row)'
    fi
    if [ "$status" = 'NOT REFUSED' ]; then
        printf '%s: %s\n%s\n' "$label" "$status" "$(tail -5 <<<"$said")"
    else
        echo "$label: $status" | tee -a "$room/tried"
    fi
    rm -rf "crates/$name/src"
    mv "$room/src" "crates/$name/src"
}
for name in "${names[@]}"; do
    for edit in "crates/$name/mistakes/by_test/"*.edit; do
        [ ! -f "$edit" ] || try_by_test "$name" "$PWD/$edit"
    done
done
refused=$(grep -c ': refused, as it must be' "$room/tried" || true)
echo "$refused refused, $((total - refused)) not"
[ "$refused" = "$total" ]
