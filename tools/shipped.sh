# What the scripts that read shipped/ share, for a POSIX shell. They set `top`, the folder of the checkout, first.
# shellcheck shell=sh disable=SC2154
shipped=$top/shipped/x86_64-linux
shipped_page=$top/shipped/web
# shellcheck disable=SC2034
shipped_files="postcopy libpostcopy.so libpostcopy.a"
sources=

# Prints what the manifest of a folder has under a name, or nothing if it has none, or if there is no manifest.
told_in() {
    [ ! -f "$1/manifest" ] || awk -v name="$2" '$1 == name { print $2; exit }' "$1/manifest"
}

manifest() {
    told_in "$shipped" "$1"
}

sum_of() {
    sha256sum < "$1" | cut -d ' ' -f 1
}

# The newest version of glibc that a program names.
glibc_of() {
    grep -ao 'GLIBC_[0-9][0-9.]*' "$1" | sort -Vu | tail -n 1 | cut -d _ -f 2
}

# Whether a file has the bytes that the manifest tells of the shipped file of a name.
has_shipped_bytes() {
    [ -r "$1" ] && [ "$(sum_of "$1")" = "$(manifest "$2")" ]
}

# Whether a file has the bytes of the shipped page.
has_page_bytes() {
    [ -r "$1" ] && [ "$(sum_of "$1")" = "$(told_in "$shipped_page" postcopy.html)" ]
}

# Whether a built file is there, and no source was changed since: of this checkout, or of the one that is named.
is_up_to_date() {
    [ -r "$1" ] || return 1
    places=$(sh "$top/tools/shipped-sources" --places) || return 1
    # (no name of a place has a space)
    # shellcheck disable=SC2086
    newer=$(cd "${2:-$top}" && find $places -newer "$1" -print -quit) && [ -z "$newer" ]
}

# Whether no source was written since a file was, under whatever time: the system tells when it last wrote of each, and nobody
# sets that. It says so too of a source that was only copied or renamed: then the digest tells. A place that is gone is a change,
# and of a crate that is gone the folder of all crates tells.
is_unchanged_since() {
    [ -r "$1" ] || return 1
    places=$(sh "$top/tools/shipped-sources" --places) || return 1
    # shellcheck disable=SC2086
    newer=$(cd "$top" && find crates $places \( -newer "$1" -o -cnewer "$1" \) -print -quit -o -path crates -prune) && [ -z "$newer" ]
}

is_of_machine() {
    [ "$(uname -s)-$(uname -m)" = Linux-x86_64 ]
}

# Sets `sources` to the digest of the sources that are here, once.
take_digest() {
    sources=${sources:-$(sh "$top/tools/shipped-sources")}
}

# Whether what is shipped was built from the sources that are here.
is_of_sources() {
    [ -f "$shipped/manifest" ] && take_digest && [ "$sources" = "$(manifest sources)" ]
}

# Whether the shipped page was made of what is here.
is_page_of_sources() {
    [ -f "$shipped_page/manifest" ] && [ "$(sh "$top/tools/page-sources")" = "$(told_in "$shipped_page" sources)" ]
}

# Whether there is a toolchain here, and another one than that of what is shipped: it may make other bytes of the same sources.
is_other_toolchain() {
    command -v rt > /dev/null && [ "$(toolchain_digest)" != "$(manifest toolchain-digest)" ]
}

# The identity of the toolchain that is here: its logic, and the digests of its archive and compiler.
toolchain_digest() {
    kit=$(dirname "$(rt doc)")
    cat "$kit/KIT-ID" "$kit/WHAT" | sha256sum | cut -d ' ' -f 1
}
