#!/bin/sh
# Makes pages of the libraries' documentation: a page a crate with what it offers, each item with its text and its contract,
# and a page that lists them. Type aliases and re-exports of other crates' items are missing.
#
#   packaging/pages.sh [FOLDER]   by default pages/ here, which is made if it isn't there
set -eu
cd "$(dirname "$0")/.."
folder=${1:-pages}
mkdir -p "$folder"

head='<!doctype html><meta charset="utf-8"><meta name="viewport" content="width=device-width"><meta name="color-scheme" content="light dark">
<style>body{font:16px/1.5 sans-serif;max-width:60em;margin:2em auto;padding:0 1em}pre{overflow-x:auto;padding:.6em;border-left:3px solid #888}
h3{margin:2em 0 0}code,pre{font:13px/1.4 monospace}td,th{border:1px solid #888;padding:.2em .5em}table{border-collapse:collapse}</style>'

# The page of a crate: $1 is its name.
page() {
    top=crates/$1/src/lib.rt
    # What the crate offers: the names that its root hands on, and the files of its public modules.
    names=$(tr '\n' ' ' < "$top" | grep -o 'pub use [^;]*;' | sed 's/pub use //; s/[a-z_]*:://g; s/[{};,]/ /g' | tr '\n' ' ')
    modules=$(sed -n 's/^pub mod \([a-z_]*\);.*/\1/p' "$top")
    printf '%s\n<title>%s</title>\n<p><a href="index.html">all crates</a></p>\n<h1>%s</h1>\n' "$head" "$1" "$1"
    find "crates/$1/src" -name '*.rt' ! -name 'tests.rt' ! -path '*/tests/*' | sort | sed "s|^$top\$|0 &|" | sort | sed 's/^0 //' |
        while read -r file; do
            module=$(basename "$file" .rt)
            all=0
            for name in $modules; do [ "$module" != "$name" ] || all=1; done
            [ "$file" != "$top" ] || all=1
            awk -v names=" $names " -v all="$all" -v root="$([ "$file" = "$top" ] && echo 1 || echo 0)" -f packaging/pages.awk "$file"
        done
}

{
    printf '%s\n<title>bracha</title>\n<h1>The libraries of bracha</h1>\n<p>From the lowest up; <a href="../docs/ARCHITECTURE.md">ARCHITECTURE</a> says how they join.</p>\n<table>\n' "$head"
    sed -n 's/^\([a-z_]*\)[ :].*/\1/p' crates.txt | grep -v '^test_' | while read -r crate; do
        [ -f "crates/$crate/src/lib.rt" ] || continue
        page "$crate" > "$folder/$crate.html"
        about=$(awk '!/^\/\/!./ { exit } { sub(/^\/\/! /, ""); print }' "crates/$crate/src/lib.rt" | tr '\n' ' ' |
            sed 's/\. .*/./; s/&/\&amp;/g; s/</\&lt;/g; s/\[\(`[^`]*`\)\]/\1/g; s/`\([^`]*\)`/<code>\1<\/code>/g')
        printf '<tr><td><a href="%s.html">%s</a><td>%s\n' "$crate" "$crate" "$about"
    done
    printf '</table>\n'
} > "$folder/index.html"
echo "$folder/index.html"
