#!/bin/bash
# Lists the places of the design pass in the sources of a commit, a heading for each command.
C=${1:-HEAD}
G() { git grep -nP "$1" "$C" -- ':(glob)crates/*/src/**' | sed -E "s/^$C:crates\///"; }
echo "# 1a numbers for kinds";    G '(number|state|code|kind|rule): u(8|16|32|64)\b|-> u8$|BadImage\(u8\)'
echo "# 1b constants of numbers"; G 'const [A-Z_]+: (u8|Answer)\b'
echo "# 1c matches that pass on"; G 'Err\(\w+\) => (Err\(|return Err)|Ok\(\w+\) => Ok\(|Some\(\w+\) => Some\(|None => None|Err\(\w+\) => Answer'
echo "# 1d flags";                G '^\s*(pub )?\w+: bool,'
echo "# 2a functions of one name in two crates"
git grep -noP '^\s*(pub(\(crate\))? )?fn \w+' "$C" -- ':(glob)crates/*/src/**' | sed -E "s/^$C:crates\/([a-z_]+)\/[^:]*:[0-9]+:\s*(pub(\(crate\))? )?fn (\w+)/\4 \1/" | sort -u | awk '{n[$1]++; c[$1]=c[$1]" "$2} END{for(k in n) if(n[k]>1) print k":"c[k]}' | sort
echo "# 2b types and constants of one name in two crates"
git grep -nP '^\s*(pub(\(crate\))? )?(struct|enum|type|const) \w+' "$C" -- ':(glob)crates/*/src/**' | sed -E "s/^$C:crates\/([a-z_]+)\/[^:]*:[0-9]+:.*\b(struct|enum|type|const) (\w+).*/\3 \1/" | sort -u | awk '{n[$1]++; c[$1]=c[$1]" "$2} END{for(k in n) if(n[k]>1) print k":"c[k]}' | sort
echo "# 3 loops over counts";     G '^\s*(for .* in .*\.\.|while |loop \{)'
echo "# 4 conversions and printing"; G 'fn (from|to)_\w+|fn number|impl.* (PartialEq|Ord|Eq|Clone) for|fn \w*(decimal|hex|digit)\w*|fn \w+_(word|bytes)\('
echo "# 5 clauses that stand three times or more"
git grep -hP '^\s+(requires|ensures)' "$C" -- ':(glob)crates/*/src/**' | sed -E 's/^\s+//' | sort | uniq -c | sort -rn | awk '$1>=3'
echo "# 6 arrays, and lengths beside buffers"; G '^\s*(pub )?\w+: (\[\w+; \w+\]|usize),'
echo "# 7 tables and switches of steps"; G ': fn\(|dyn |match (which|step|kind|part)\b'
echo "# 8 proof files and their lines"
git ls-tree -r --name-only "$C" -- crates | grep -c 'Answers.antt$'
for f in $(git ls-tree -r --name-only "$C" -- crates | grep 'proofs/.*\.antt$'); do git show "$C:$f"; done | wc -l
