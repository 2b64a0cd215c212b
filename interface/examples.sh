# What run_c_examples and run_rust_examples begin with: their usage, and the library in $archive, given or built. A
# script has set $here to this folder and $needed to the programs that it needs, and its first comment is its usage.
script=$(basename "$0")
repository=$(dirname "$here")
archive=$repository/target/staticlib/libcurvalique.a

case "${1:-}" in
--help | -h) sed -n '2,/^set/s/^# \{0,1\}//p' "$here/$script"; exit 0 ;;
esac
[ $# -le 1 ] || { echo "usage: interface/$script [ARCHIVE]   (--help says more)" >&2; exit 2; }
for program in python3 $needed; do
    command -v "$program" >/dev/null || { echo "$script: $program is not on the path" >&2; exit 2; }
done
if [ $# -eq 1 ]; then
    [ -f "$1" ] || { echo "$script: no file $1; without an argument the library is built here" >&2; exit 2; }
    archive=$(readlink -f "$1")
else
    "$here/build" library
fi
