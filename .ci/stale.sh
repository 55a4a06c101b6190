# For ./achdesk and ./try: whether a program has to be made, because there is none or a source is newer. $top is the repository.
is_stale() {
    [ -x "$1" ] || return 0
    [ -n "$(find "$top/crates" "$top/crates.txt" -name out -prune -o \
        \( -name '*.rt' -o -name '*.antt' -o -name crates.txt \) -newer "$1" -print -quit)" ]
}
