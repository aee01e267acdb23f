# What tools/list and tools/show share.
root=$(cd "$(dirname "${BASH_SOURCE[0]}")/.." && pwd)
name=$(basename "$0")

# stop MESSAGE: nothing was asked that could be answered.
stop() {
    printf '%s: %s\n' "$name" "$1" >&2
    exit 2
}

# readable FILE: ends the command unless there is such a file.
readable() {
    [ -f "$1" ] && [ -r "$1" ] || stop "$1: no file that can be read"
}

# ready PROGRAM: proves and links a program, unless it is newer than its sources, and leaves its path in program. `rt run` also runs it: given
# nothing, it writes a line or two, which nobody asked for.
ready() {
    local home=$root/crates/$1 said
    program=$home/out/$1
    if ! [ -x "$program" ] || [ -n "$(find "$root/crates.txt" "$root/crates" -name out -prune -o -type f -newer "$program" -print -quit)" ]; then
        printf '%s: proving %s, which takes some minutes the first time\n' "$name" "$1" >&2
        said=$(cd "$home" && rt run </dev/null 2>&1 >/dev/null) || stop "$1 was not proved: $said"
        touch "$program"
    fi
}

# refused LINE: whether the line is that of a refusal. Its number and the needed length are left in number and needed.
refused() {
    [[ $1 =~ ^refused\ ([0-9]+)\ ([0-9]+)$ ]] && number=${BASH_REMATCH[1]} && needed=${BASH_REMATCH[2]}
}

# words: the refusal of number and needed in the words of the C header.
words() {
    awk -v number="$number" -v needed="$needed" -F'"' '
        match($0, /RASCLANYA_REFUSED_[A-Z_]+ = [0-9]+/) {
            split(substr($0, RSTART, RLENGTH), pair, " = ")
            if (pair[2] == number) cause = pair[1]
        }
        cause != "" && index($0, "case " cause ":") { text = $2 }
        END { print text (number == 1 ? ": " needed " bytes are needed" : "") }
    ' "$root/include/rasclanya.h"
}

# refuse FILE: says why the file is refused, and ends the command.
refuse() {
    printf '%s: %s: refused %s, %s\n' "$name" "$1" "$number" "$(words)" >&2
    exit 1
}
