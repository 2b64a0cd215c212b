# What run and read-text begin with: their usage, and the file that is named, or the sample of that name, in $file. A
# script has set $samples to this folder, and its first comment is its usage.
script=$(basename "$0")
case "${1:-}" in
--help | -h) sed -n '2,/^set/s/^# \{0,1\}//p' "$0"; exit 0 ;;
esac
[ $# -eq 1 ] || { echo "usage: samples/$script FILE   (samples/$script --help says more)" >&2; exit 2; }
command -v python3 >/dev/null || { echo "samples/$script: python3 is not on the path" >&2; exit 2; }
file=$1
[ -e "$file" ] || file=$samples/$1
if [ ! -f "$file" ]; then
    echo "samples/$script: no file $1, and no sample of that name; there are: $(cd "$samples" && echo *.txt)" >&2
    exit 2
fi
