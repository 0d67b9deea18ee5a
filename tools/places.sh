#!/usr/bin/env bash
# Counts in crates/*/src of this checkout, or of the one given, the places that docs/DESIGN-PASS.md speaks of, a line each.
cd "${1:-.}" || exit 1
n() { grep -rnE "$1" crates/*/src --include=*.rt | grep -cvE "${2:-^$}"; }
echo "1  own enums of the shape of Option or Result: $(n '^pub enum (OptionalCall|OptionalResource|Taken|ListWords|Verdict) ')"
echo "1  answers tested and returned by hand: $(n '^ *if !rules::passes\(')"
echo "1  a number that stands for none, of a lowest one or a first bad one: $(n '^ *// .*(if none is bad|, or D\.|; 5 if there is none|How far the first line)|^fn bad_(set|sxd|sxw|deepest|zero)\(')"
echo "1  numbers of a request's kind compared: $(n '\.kind (==|!=)')"
echo "1  arms that give a refusal its number: $(n '^ *Reason::[A-Za-z]+ => [0-9]+,')"
echo "3  loops by while: $(n '^ *while ')"
echo "4  a number widened by a function of our own: $(n 'words::wide\(|[^_]wide\([a-z]|word4\(')"
echo "4  an entry copied field by field: $(n 'sleep: e\.sleep,')"
echo "5  contracts with the fact Wide w: $(n 'requires.*Wide w')"
echo "5  contracts with the fact RecordAt: $(n 'requires.*RecordAt')"
echo "5  functions that take at and w: $(n 'fn .*at: usize, w: usize')"
echo "6  functions that take words or bytes and how many of them: $(n 'fn .*(&\[u(8|32)\], n: usize|list: &\[u32\], at: usize|at: usize, end: usize)')"
