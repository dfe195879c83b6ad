#!/bin/sh
# Prints the places in src/ of each point of docs/DESIGN-PASS.md. Run at the top of the repository.
src='crates/*/src'

lines() {
    echo
    echo "== $1"
    grep -rnE "$2" $src | grep -vE '^[^:]*:[0-9]+: *(//|use |ghost use )' >"$found"
    cat "$found"
    wc -l <"$found"
}

found=$(mktemp)
copies=$(mktemp -d)

lines '1a enums, and flags in structs' '^ *(pub(\(crate\))? )?enum |^    (pub )?[a-z_]+: bool,'
lines '1b numbers for refusals and layers' '(layer|number|refused_with)(\([^)]*\))?(:| ->) u(8|32)\b'
lines '1c numbers for kinds of commands' 'pub const [A-Z_]+: u8 = 0x'
lines '2a a constant and a method for the same letter' 'fn sign\(|const [A-Z_]*LETTER: u8'

echo
echo '== 2b pieces of five lines or more that stand twice'
for file in $(find crates/*/src -name '*.rt'); do
    mkdir -p "$copies/$(dirname "$file")"
    cp "$file" "$copies/${file%.rt}.rs"
done
duplicates --repo "$copies" --min-lines 5 --most 60

lines '3a while and loop' '^ *(.[a-z]+: )?(let .* = .[a-z]+: )?(while|loop)\b.*\{'
lines '3b for over a range of numbers' '\bfor .* in .*\.\.'
lines '4a functions that convert, print or read' 'fn (blank|at|two|four|number|letter|place_of|put_[a-z]+|print_[a-z]+|read_[a-z]+)\b'
lines '4b errors handed on by a match' 'Err\((fault|_)\) =>|if let Err\(fault\)'

echo
echo '== 5a clauses that stand three times or more'
grep -rhoE '(requires|ensures)( [a-z]+)? \{.*\}' $src | sed -E 's/^(requires|ensures)( [a-z]+)? //' | sort | uniq -c | sort -rn | awk '$1 >= 3'

lines '5b literals of a fault' '^ *(.*\()*PlanFault \{$'
lines '6 fixed arrays' '\[(u8|u16|u32|0u8|0u32|0|[A-Z][a-z]+::blank\(\))[^]]*; *[A-Z0-9_]+\]'
lines '7 steps chosen by a letter' 'letter_of::<'
rm -rf "$found" "$copies"
