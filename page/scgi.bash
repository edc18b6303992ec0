# What the page's two companions share: one SCGI request on standard input, and its answer on
# standard output. They source this, with a working folder of their own as the present one.
set -u
umask 077
export LC_ALL=C
# How many octets a policy may have: popbox's own limit.
most=1048576
length='' what='' old='' nobody='' who=''

# answer STATUS FILE [TYPE]: the answer, and the end.
answer() {
    printf 'Status: %s\r\nContent-Type: %s; charset=utf-8\r\nContent-Length: %s\r\n\r\n' \
        "$1" "${3:-text/plain}" "$(stat -c %s "$2")"
    cat "$2"
    exit
}

# refuse STATUS TEXT
refuse() {
    printf '%s\n' "$2" >refusal
    answer "$1" refusal
}

# The request's headers, of a netstring; what isn't one isn't answered.
read_head() {
    local size name value
    IFS= read -r -d : -n 6 size && [[ $size =~ ^[1-9][0-9]{0,3}$ ]] || exit 1
    head -c "$size" >head
    while IFS= read -r -d '' name && IFS= read -r -d '' value; do
        case $name in
        CONTENT_LENGTH) length=$value ;;
        WHAT) what=$value ;;
        OLD) old=$value ;;
        NOBODY) nobody=$value ;;
        WHO) who=$value ;;
        esac
    done <head
    [[ $(head -c 1) = , ]] || exit 1
}

# The request's body, into `body`; one that is cut isn't answered.
read_body() {
    [[ $length =~ ^[0-9]{1,7}$ ]] || refuse '411 Length Required' 'length required'
    length=$((10#$length))
    ((length <= 2 * most)) || refuse '413 Content Too Large' 'too large'
    head -c "$length" >body
    [[ $(stat -c %s body) = "$length" ]] || exit 1
}

# The body's two policies: the first OLD octets are the file `old`, the others `draft`.
split_body() {
    [[ $old =~ ^[0-9]{1,7}$ ]] && ((10#$old <= length)) || refuse '400 Bad Request' 'no OLD'
    head -c "$((10#$old))" body >old
    tail -c "+$((10#$old + 1))" body >draft
}

work=$(mktemp -d) && cd "$work" || exit 1
trap 'cd / && rm -rf "$work"' EXIT
