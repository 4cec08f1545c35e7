# Compiles assignments like v1=v2*(v3+4) to code for a stack.
function peek() { return substr(text, at, 1) }
function emit(word) { code[++count] = word }
function factor(name) {
    if (peek() == "(") { at++; sum(); at++; return }
    match(substr(text, at), /^[a-z0-9]+/); name = substr(text, at, RLENGTH); at += RLENGTH
    if (name ~ /^[0-9]/) emit("push " name); else { if (!(name in place)) place[name] = ++names; emit("load " place[name]) }
}
function product() { factor(); while (peek() == "*") { at++; factor(); emit("mul") } }
function sum() { product(); while (peek() == "+") { at++; product(); emit("add") } }
{ split($0, sides, "="); text = sides[2]; at = 1; sum(); if (!(sides[1] in place)) place[sides[1]] = ++names; emit("store " place[sides[1]]) }
END { for (n = 1; n <= count; n++) print code[n] }
