# How ./lifebatch, and the lifebatch that launcher/build.py installs, call the program $program. $endings are those of the
# files that it writes, if it writes one.

# Fails if the arguments name an output file that can't be written. The program itself finds that only at the first byte,
# which a long run has at its end. Arguments that the program does not take are left to it.
test_output() {
    output='' is_next=false
    for word; do
        if $is_next; then
            output=$word is_next=false
            continue
        fi
        case $word in
        -h | -qh | --help) return 0 ;;
        --) break ;;
        -o | -qo | --output) is_next=true ;;
        --output=*) output=${word#*=} ;;
        -o=* | -qo=*) output=${word#*o=} ;;
        -o* | -qo*) output=${word#*o} ;;
        esac
    done
    case $output in
    *.*) ;;
    *) return 0 ;;
    esac
    case " $endings " in
    *" ${output##*.} "*) test_path ;;
    esac
}

# Fails if no file $output can be written. What a link leads to is left to the program.
test_path() {
    case $output in
    */*) folder=${output%/*}/ ;;
    *) folder=. ;;
    esac
    if ! [ -d "$folder" ]; then
        why="there is no folder $folder"
    elif [ -d "$output" ]; then
        why='it is a folder'
    elif [ -h "$output" ] || [ -w "$output" ]; then
        return 0
    elif [ -e "$output" ] || ! [ -w "$folder" ] || ! [ -x "$folder" ]; then
        why='permission denied'
    else
        return 0
    fi
    printf '%s: cannot write %s: %s\n' "$name" "$output" "$why" >&2
    return 3
}

# Asks for large pages for the tables, and that vectors of a megabyte or more stand outside of the heap, so that the
# system gets their memory back when they are freed. glibc 2.36 asks the system for large pages in each start only if all
# names are bound when the program starts. The caller's own settings win.
call() {
    export GLIBC_TUNABLES="${GLIBC_TUNABLES-glibc.malloc.hugetlb=1:glibc.malloc.mmap_threshold=1048576}"
    export LD_BIND_NOW="${LD_BIND_NOW-1}"
    exec "$program" "$@"
}
