#!/bin/bash
# Counts, in src/ of a commit, the places that an older style of Rattle leaves: tools/count_places.sh COMMIT [-l lists them]
# Each line is a name, a count, and the pattern that finds the places; docs/DESIGN-PASS.md says what became of each.
commit=${1:-HEAD}
places() {
    if [ "$list" ]; then
        echo "== $1: $2"
        git grep -nE "$2" "$commit" -- 'crates/*/src/*.rt' | sed "s/^$commit://"
    else
        printf '%-14s %4s   %s\n' "$1" "$(git grep -hE "$2" "$commit" -- 'crates/*/src/*.rt' | wc -l)" "$2"
    fi
}
[ "$2" = -l ] && list=1
# 1: own enums; arms that only hand a value or an error on; numbers for a format, a width, a key or nothing; coded answers in tests
places 1-enums '^(pub(\(crate\))? )?enum '
places 1-rewraps '(Err\([a-z]+\) => (return )?Err\([a-z.()]+\)|None => (return )?(Err\(Fault|None)|(Ok|Some)\([a-z]+\) => (return )?(Ok|Some)\()'
places 1-numbers '(\bformat|\bwidth): (u16|u32)|Result<\(u16, u16\), Denial>|_key\(word: &\[u8\]\) -> Option<usize>|\[Option<u32>; 8\]'
places 1-nothing '^pub fn [a-z_]+(<[^>]*>)?\(\) -> u8$'
places 1-codes 'Denial>\) -> u32|word: u8'
# 3: loops that count
places 3-loops '\bwhile\b|\bfor [a-z_]+ in [^{]*\.\.'
# 4: comparisons, conversions and printing by hand; types that derive no comparison
places 4-by-hand 'fn (same|order|kind_word|store_word|deltas_of|is)\b|\* 256|/ 256|% 256|[*/%] 65536|\) as u16 \+|as u8 == '
places 4-underived '^#\[derive\((Clone, Copy|Drop)\)\]'
# 5: facts that clauses repeat; parameters that travel together
places 5-facts 'Ordered K\.Key\.cmp (self|result)|Sound (self|result)|old\.used ≤ length|at < 2 \^ 40|1 ≤ format|Wide |rows_of (self|result)'
places 5-together 'bytes: &\[u8\], (at|ppem)|^    bytes: &\[u8\],|entries: &\[Entry\],|words: &Words, '
# 6: a length beside a buffer, rows beside their order, places in a copy
places 6-buffers '^    (pub )?(used|len|filled|parts|order|rows|pool|table): '
# 7: a step that is chosen by a value
places 7-steps 'match \(|dyn |fn\('
