#!/usr/bin/env bash
# Counts the places of docs/DESIGN-PASS.md in crates/*/src, by point; run it at the top of a checkout.
set -u

# so many lines match
lines() { grep -rhE "$1" crates/*/src | grep -cvE '^\s*//'; }
# so many matches there are
places() { grep -rohE "$1" crates/*/src | wc -l; }
# so many functions have all of these parameters
functions() {
    WANTED="$*" perl -0777 -ne '
        while (/\bfn \w+(<[^>]*>)?\(([^)]*)\)/gs) {
            my $given = $2;
            $n++ unless grep { $given !~ /\b$_:/ } split / /, $ENV{WANTED};
        }
        END { print $n + 0, "\n" }' crates/*/src/*.rt
}
say() { printf '%-66s %4s\n' "$1" "$2"; }

kinds='UNINITIALIZED|MAP|SEQUENCE|STRING|NULL|NO_VALUE|NO_KEY|INT_KEY|STRING_KEY'
shaped='Decoded|Tried|Position|Appended|Performed|Turn|Level|Parsed|FieldAt|TextRead|ListRead|Head|Written|Escape'
say '1 own enums of the shape of Option or Result' "$(lines "enum ($shaped) \{")"
say '1 numbers for kinds, named' "$(lines "const ($kinds): u32")"
say '1 numbers for kinds, used' "$(places "\brow::($kinds)\b")"
say '1 tests of a reading by its number' "$(lines '(reading|answer)?\.?number (!=|==|<=) [0-9]')"
say '1 codes for how a key was looked for' "$(places '\b(NEAR|BY_BLOCK|NO_BLOCK|NOWHERE)\b')"
say '1 NO_AIDS, a number for none' "$(places '\bNO_AIDS\b')"
say '3 while loops' "$(lines '^\s*while ')"
say '3 steps of an index by hand' "$(lines '^\s*[a-z_]+ [-+]= (1|8|16|BLOCK);')"
say '4 equality, order, copies, conversions as functions of their own' "$(lines \
    '\bfn (same_\w+|compare_\w+|copy\w*|number|is|code|fill_\w+|clear_\w+|all_\w+|begins|int_of|is_int)\(')"
say '5 functions that take words and text' "$(functions words text)"
say '5 functions that take tag and name' "$(functions tag name)"
say '5 functions that take input and config' "$(functions input config)"
for fact in Readable Asked SomeReads Ready Growable LentSlices Linked; do
    say "5 clauses that begin with $fact" "$(places "requires[a-z_ ]*\{ \(?$fact\b")"
done
say '6 functions that take out and at' "$(functions out at)"
say '7 parameters that say which step to run' "$(places '\b(style|part|until): (Style|Part|Until)\b')"
say '8 files of answers and invariants' \
    "$(find crates/*/proofs -name Answers.antt -o -path '*/proofs/*' -name Invariants.antt | wc -l)"
say '8 lines in proofs/' "$(find crates/*/proofs -name '*.antt' -exec cat {} + | wc -l)"
say 'functions' "$(lines '\bfn [a-z_0-9]+')"
say 'lines in src/' "$(cat crates/*/src/*.rt | wc -l)"
