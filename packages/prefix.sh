# What the install scripts share. It is read by `.`, and runs nothing by itself.

# prefix PREFIX: prints PREFIX below DESTDIR. Ends the script with status 2 where that is no absolute path, or no folder
# that this user may write.
prefix() {
    case $1 in
        /*) ;;
        *) echo "$0: PREFIX is no absolute path: $1" >&2; exit 2 ;;
    esac
    above=${DESTDIR:-}$1
    while [ ! -e "$above" ]; do
        above=$(dirname "$above")
    done
    if [ ! -d "$above" ] || [ ! -w "$above" ]; then
        echo "$0: $above is no folder that you may write, and PREFIX is $1" >&2
        exit 2
    fi
    echo "${DESTDIR:-}$1"
}

# remove FOLDER FILE..: removes the files, and those of their folders that have the package's name.
remove() {
    folder=$1
    shift
    for file; do
        rm -f "$folder/$file"
        case $(dirname "$file") in
            */num_format | */regroup) rmdir "$folder/$(dirname "$file")" 2>/dev/null || true ;;
        esac
    done
}
