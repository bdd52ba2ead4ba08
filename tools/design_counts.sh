#!/bin/sh
# Counts the lines of src/ at which docs/DESIGN-PASS.md looks for each of its points, and prints them with -v.
#     tools/design_counts.sh [-v] [COMMIT]
# With a commit, its tree is counted in place of the files that are here.
set -eu
verbose=no
if [ "${1:-}" = -v ]; then verbose=yes; shift; fi
tree=.
if [ $# -gt 0 ]; then
    tree=$(mktemp -d)
    trap 'rm -rf "$tree"' EXIT
    git archive "$1" crates | tar -x -C "$tree"
fi
cd "$tree"

lines() { grep -rnE --include='*.rt' "$1" crates/*/src | grep -vE '^[^:]*:[0-9]+: *//' || true; }
point() {
    found=$(lines "$2")
    printf '%-52s %s\n' "$1" "$(printf '%s' "$found" | grep -c . || true)"
    if [ $verbose = yes ] && [ -n "$found" ]; then printf '%s\n' "$found" | cut -c1-150 | sed 's/^/    /'; fi
}

point '1 enums' '^ *pub(\(crate\))? enum '
point '1 numbers for kinds and refusals' '\b(number|preference|kind): &?u8|\(u8,|const [A-Z_]+: u8|number(_of)?\(.*: u8\)'
point '1 flags' ': bool\b|= (true|false);'
point '2 types' '^ *pub(\(crate\))? (struct|enum) |^struct '
point '2 functions and methods' '\bfn [a-z_]+'
point '3 loops over numbers' '\bfor [a-z_]+ in .*\.\.'
point '3 other loops' '^ *(while |loop \{)'
point '4 impls of traits by hand' '^ *impl.* for '
point '4 order, equality, words, numbers by hand' '\bfn (same|at_most|word|number|from_number|push_number)\b|/ 256|% 256|\* 256|% 10\b'
point '5 requires' '^ *requires '
point '5 lists passed with sets or tasks' 'list: &TaskList.*(task: usize|unplaced: u32)|unplaced: u32'
point '5 slices passed with a count' 'places: &(mut )?\[T\], count: usize'
point '6 arrays in types' '^ +(pub )?[a-z_]+: \[[A-Za-z0-9]+; [A-Za-z0-9_]+\],'
point '6 lengths in types' '^ +(pub )?(count|len): usize,'
point '7 function types, closures, dyn' '\bfn\(|\bdyn |\bFn(Mut|Once)?\('
