# Starts the program $name of the repository $root in the caller's folder, with the caller's arguments and streams. If the
# program is missing, or older than its code or contracts, it is proved and built first. A newer proof of the same contracts
# does not change a proved program. The script ./NAME of each program sets both and reads this one.
set -u

out=$root/crates/$name/out
program=$out/$name
# Where the program writes a file, its script has set those of the file.
endings=${endings-}
. "$root/launcher/call.sh"
test_output "$@" || exit

# NAME.built has the time at which the last build began. Read in its own folder, it returns 0 if code or contracts are newer.
# It tests some 500 files, so no other process is started, and the paths are short.
is_due=true
here=${PWD-}
if ! [ -x "$program" ] || ! [ -e "$program.built" ]; then
    :
elif [ . -ef "$here/." ]; then
    CDPATH='' cd -P -- "$out" || exit 2
    . "./$name.built" || is_due=false
    CDPATH='' cd -P -- "$here" || exit 2
else
    # There is no way back to a folder that was removed.
    (CDPATH='' cd -P -- "$out" && . "./$name.built") || is_due=false
fi

# The build gets no argument and no input of the caller's, and prints nothing to standard output.
build() {
    for tool in rt python3; do
        if ! command -v "$tool" >/dev/null 2>&1; then
            echo "$name: the program is not built yet, and the build needs $tool, which is not on the PATH" >&2
            return 2
        fi
    done
    python3 "$root/launcher/build.py" "$name" >&2 </dev/null
}

if $is_due; then
    # The help is the program's own, which shows it itself once it is built.
    case $#${1-} in
    1-h | 1--help)
        cat "$root/launcher/help/$name.txt" || exit 3
        python3 "$root/launcher/build.py" "$name" --about </dev/null || echo "$name: the program is not built yet" >&2
        exit 0
        ;;
    esac
    build || exit
fi
call "$@"
