#!/usr/bin/env bash
# Lists the lines of the sources where an older form may stand, by the points of docs/DESIGN-PASS.md. A line that is
# listed is only a candidate; the page says which of them are places and what became of each.
# With -c it prints the counts alone.
set -euo pipefail
cd "$(dirname "$0")/.."

list() { # list NAME PATTERN
    local found
    found=$(grep -rnE --include='*.rt' -- "$2" crates/*/src || true)
    printf '%-28s %s\n' "$1" "$(grep -c . <<<"$found" || true)"
    if [ "${only_counts:-}" != yes ] && [ -n "$found" ]; then sed 's/^/    /' <<<"$found"; fi
}

[ "${1:-}" = -c ] && only_counts=yes

list '1 enums'                '^\s*pub enum '
list '1 flags among fields'   '^\s*(pub )?[a-z_0-9]+: bool,'
list '1 a flag for an answer' 'fn [a-z_]+(<[^(]*>)?\(&mut self.*-> bool'
list '1 numbers of refusals'  '^\s+\w+::\w+ => [0-9]+,|^\s+[A-Z]\w+ = [0-9]+,'
list '1 numbers of kinds'     '\[(1|2|3|4|5|16|17|18)(,|\.\.=)|&\[$'
list '1 numbers of shapes'    '\([0-9], \w+, \w+\)'
list '2 kinds of one entry'   'checked_sub\([0-9]+\)|from\.pass\([0-9]+\)'
list '2 one conversion, twice' '^impl.* From<'
list '3 counted by hand'      '[+-]= 1;'
list '3 all loops'            '^\s*(while|loop|for) '
list '4 fields compared'      '\w\.\w+ == \w+\.\w+.*&'
list '4 numbers'              'fn number\b'
list '4 conversions by name'  'fn (of|right|form|known|layer|digit|bytes|settled|counts)\b'
list '4 printing'             'fmt::Formatter<W>'
list '5 held'                 '\bheld\b'
list '5 the parts of a pair'  'both \('
list '5 the parts of a square' 'quad \('
list '5 buffer and place'     'out: &mut \[u8\], *at: usize|out: &mut \[u8\],$|fn put'
list '5 draft and strip'      'draft: &Draft, strip: &\[W\]'
list '5 a cell for each rule' '≤ length strip\.now \}'
list '5 private fields'       '\.(passed|at|made|unmade)\b.*\}$'
list '6 arrays in place'      '^\s*(pub )?[a-z_]+: \[[A-Za-z]+; '
list '6 lengths and places'   '^\s*(pub )?(count|len|at|passed): usize'
list '7 function values'      '\bdyn |: fn\(|\[fn\('
list '7 a case for each step' '^\s*match (call|kind) '
