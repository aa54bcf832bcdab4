#!/bin/sh
# Lists places in crates/*/src that an older form of the language may have left, by kind; the last line of each kind is their number.
# Run at the top of the repository. `sh tools/count-places.sh -l` prints the places too.
cd "$(dirname "$0")/../crates" || exit 1
show() { # NAME, places on standard input
    places=$(cat)
    [ "$list" ] && printf '%s\n' "$places"
    printf '%-58s %s\n' "$1" "$(printf '%s' "$places" | grep -c .)"
}
list=; [ "$1" = -l ] && list=1
src() { grep -rnE "$@" --include=*.rt . | grep -v '/out/'; }
src '^ *///.*(or 0\.|0, or the number|0 where|or 0 where|or zeros|or 99|or the number of slots|the number of slots where)' | show '1a a number that stands for none, or for a refusal'
grep -rnE -A1 'let .* else \{$' --include=*.rt . | grep -v /out/ | grep -E 'return (Err|None)' | show '1b `let .. else` that only returns an Err or a None'
src -e 'Err\(_\) => Err\(|Ok\(\(\)\) => Ok\(\(\)\)|None => None,|Some\([a-z]\) => [a-z_]+\(.*[a-z]\),$' | show '1c an arm that only passes a case on'
src '^\)? ?.*\) -> \(.*, Result<|^\) -> \(.*, Result<' | show '1d a value beside a Result'
src 'for .* in [^"]*\.\.[^"]* \{$|while |loop \{' | grep -v '//' | show '3a `for` over a range of numbers, `while`, `loop`'
src 'for .*\.enumerate\(\) \{$' | show '3b `for` with an index beside the item'
src '\[i\] = |\[i\]\b.*;$' | grep -v 'let \|//' | show '3c an element written or read by a counted index'
src '(self|[a-z]\.|\))\.?[a-z]+\)? == [a-z]\.[a-z_]+( |$)|== key\.' | show '4a an equality of two values, field by field'
src 'fn (of|[a-z_]+_of)\([a-z]+: (Record|&\[u8\]|i64)|Err\(_\) => Err\(Fault|Fault::Text\(fault\)' | show '4b a conversion by a function of its own'
grep -rhE -A2 'derive\(Clone, Copy\)\]' --include=*.rt . | grep -E '(struct|enum) [A-Z]' | show '4c a plain type with neither equality nor Debug'
src '\[[^]]*; [0-9]+\];$' | grep -v 'assert\|&mut \[0; \|None; \|const ' | show '6a a buffer of fixed length, filled in part'
src 'fn\([^)]*\) ->|dyn |Box<' | show '7a tables of functions, dyn, boxes'
src 'match (call|kind|step|order|record|self) \{' | show '7b matches on a kind or a call'
{ find . -name '*.antt' -path '*/proofs/*' ! -path '*/out/*' -name 'Answers.antt' | sort; } | show '8a files of answers'
find . -name '*.antt' ! -path '*/out/*' | xargs cat | grep -c . | sed 's/^/8b lines of definitions and proofs                               /'
