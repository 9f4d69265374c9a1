#!/bin/sh
# Every public function of a library has an ensures and no requires, a theorem in its crate's specs/Coincide.antt, two wrong answers
# ruled out in crates/excludes/specs (NAME_not_..), and a row in docs/PROMISES.md with the contract's equation and these theorems;
# every must-fail edit has a row there too; each method of a public trait an ensures, no requires and a row. A function without a theorem is named there, with the reason. What C links is the crate
# image's function again, with the same clauses.
mkdir -p build
bad=0
say() {
    echo "promises: $1"
    bad=1
}
# a contract with s for what was lent, before, and s' for it after; without the paths of names
plain() {
    sed "s/\([a-z]*\)\.new/\1'/g; s/\([a-z]*\)\.old/\1/g; s/\([a-z]*\)\.now/\1/g; s/(\([a-z]*'\{0,1\}\))/\1/g; s/\([A-Za-z][A-Za-z_]*\.\)\{1,\}\([A-Za-z]\)/\2/g"
}
# what a theorem says: its line and those that go on with an arrow; a name's parts are joined by _ or by a dash
says() {
    awk -v t="^ *pub $(echo "$1" | sed 's/[_-]/[_-]/g') :" 'on && !/^ *→/ {exit} $0 ~ t {on = 1} on {print}' "$2"
}
# the contract stands between the function's name and the brace that opens its body
contract_of() {
    awk -v f="$2" '$0 ~ "pub (extern \"C\" )?fn " f "[(<]" {on=1} on && /^\{/ {exit} on {print} on && /\{$/ {exit}' crates/"$1"/src/*.rt
}
# the clauses of a contract
clauses_of() {
    contract_of "$1" "$2" | sed 1d
}
# the names that a root passes on
passed_on() {
    tr '\n' ' ' <"$1" | grep -o 'pub use [a-z_0-9]*::\({[^}]*}\|[A-Za-z_0-9]*\);' | sed 's/pub use [a-z_0-9]*:://; s/[{};]//g; s/, */\n/g; s/ //g'
}
count=0
wrong=0
for lib in crates/*/src/lib.rt; do
    crate=${lib#crates/}
    crate=${crate%%/*}
    if [ "$crate" = image_c ]; then
        [ "$(clauses_of image_c pmwcas_recover)" = "$(clauses_of image pmwcas_recover)" ] || say "image_c::pmwcas_recover has other clauses than image's"
        [ "$(grep -c 'pub ' "$lib")" = 1 ] || say "image_c: only pmwcas_recover is public there"
        continue
    fi
    # every public line of a library's root is one that is understood here: uses of names, a function, a type
    grep -n '^ *pub' "$lib" | grep -Ev ':(pub use [a-z_0-9]+::([A-Za-z_0-9]+;|\{)|    pub [a-z_0-9]+: [A-Za-z0-9_]+,|pub (struct|enum) [A-Za-z]+(<[A-Z]>)? \{|pub type [A-Za-z]+ = .*;|pub fn )' >build/promises.odd
    while read -r line; do say "$lib:$line is of no form that this check knows"; done <build/promises.odd
    # in its other files `pub` is for what the root passes on; what only this crate may call is `pub(crate)`
    for file in crates/"$crate"/src/*.rt; do
        [ "$file" != "$lib" ] || continue
        for f in $(sed -n 's/^pub fn \([a-z_0-9]*\).*/\1/p' "$file"); do
            passed_on "$lib" | grep -qx "$f" || say "$file: $f is pub, and the root does not pass it on"
        done
    done
    names="$(passed_on "$lib" | grep '^[a-z]') $(sed -n 's/^pub fn \([a-z_0-9]*\).*/\1/p' "$lib")"
    for f in $names; do
        count=$((count + 1))
        contract=$(contract_of "$crate" "$f")
        case $contract in *ensures*) ;; *) say "$crate::$f has no ensures" ;; esac
        case $contract in *requires*) say "$crate::$f has a requires" ;; esac
        row=$(grep "^| \`$crate::$f\` |" docs/PROMISES.md) || say "$crate::$f has no row in docs/PROMISES.md"
        equation=$(echo "$row" | cut -d'|' -f4 | sed 's/;.*//; s/^ *//; s/ *$//')
        case $equation in
        'none: '*) ;;
        *' ≡ '*) case $(echo "$contract" | plain) in *"{ $equation }"* | *"{ ($equation) × "*) ;; *) say "$crate::$f: its contract is not $equation" ;; esac ;;
        *) say "$crate::$f: its row in docs/PROMISES.md has no equation" ;;
        esac
        # its definition stands in the theorem, of two results, and in what is ruled out
        definition=$(echo "$equation" | sed 's/.* ≡ //; s/ .*//')
        case $(says "$f" "crates/$crate/specs/Coincide.antt") in
        *"$definition "*"$definition "*) ;;
        *) grep -q "^\`$crate::$f\` .* does not fix its result" docs/PROMISES.md || say "$crate::$f has no theorem in specs/Coincide.antt" ;;
        esac
        file=crates/excludes/specs/$(echo "$crate" | awk '{print toupper(substr($0, 1, 1)) substr($0, 2)}').antt
        ruled=$(sed -n "s/^ *pub \(${f}_not_[a-z0-9_]*\) :.*/\1/p" "$file")
        many=$(echo "$ruled" | grep -c .)
        wrong=$((wrong + many))
        [ "$many" -ge 2 ] || say "$crate::$f: $file rules out $many wrong answers, and two are asked for"
        for t in $ruled; do
            case $row in *"\`$t\`"*) ;; *) say "$crate::$f: its row in docs/PROMISES.md lacks $t" ;; esac
            case $equation/$(says "$t" "$file") in 'none: '* | *" ≢ $definition "*) ;; *) say "$crate::$f: $t is not of $definition" ;; esac
        done
    done
done
# each method of a public trait has an ensures, no requires, and a row that names the trait
for file in crates/*/src/*.rt; do
    trait=$(sed -n 's/^pub trait \([A-Za-z]*\).*/\1/p' "$file")
    [ "$trait" ] || continue
    for f in $(sed -n 's/^    \(final \)\{0,1\}fn \([a-z_0-9]*\).*/\2/p' "$file"); do
        method=$(awk -v f="$f" '$0 ~ "^    (final )?fn " f "[(<]" {on = 1} on {print} on && /(;|\{|\})$/ {exit}' "$file")
        case $method in *ensures*) ;; *) say "$file: $trait::$f has no ensures" ;; esac
        case $method in *requires*) say "$file: $trait::$f has a requires" ;; esac
        grep -q "^| \`$trait::$f\` |" docs/PROMISES.md || say "$file: $trait::$f has no row in docs/PROMISES.md"
    done
done
for edit in crates/*/must-fail/*.edit; do
    [ -f "$edit" ] || continue
    name=$(echo "$edit" | sed 's/^crates.//; s/.must-fail.*//')/$(basename "$edit" .edit)
    grep -q "^| \`$name\` |" docs/PROMISES.md || say "the edit $name has no row in docs/PROMISES.md"
done
# what the page names is there
for t in $(grep -o '`[a-z0-9_]*_not_[a-z0-9_]*`' docs/PROMISES.md | tr -d '`' | sort -u); do
    grep -q "^ *pub $t :" crates/*/specs/*.antt || say "docs/PROMISES.md names $t, which is no theorem"
done
for name in $(grep -o '`[a-z]*/[a-z0-9-]*`' docs/PROMISES.md | tr -d '`' | sort -u); do
    [ -f "crates/${name%/*}/must-fail/${name#*/}.edit" ] || say "docs/PROMISES.md names $name, which is no edit"
done
rows=$(grep -c '^| `[a-z_]*::' docs/PROMISES.md)
[ "$count" -gt 0 ] && [ "$count" = "$rows" ] || say "$count public functions, but $rows rows in docs/PROMISES.md"
[ $bad = 0 ] && echo "promises: $count public functions, each with its promise and its theorem; $wrong wrong answers ruled out"
exit $bad
