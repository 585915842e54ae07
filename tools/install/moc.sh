#!/bin/sh
# Runs the program. glibc's malloc uses huge pages if the system has them. Then operations on large sets take less time.
file="$0"
if [ -L "$file" ]; then
    file="$(readlink -f "$file")"
fi
export GLIBC_TUNABLES="${GLIBC_TUNABLES-glibc.malloc.hugetlb=1}"
case "$file" in
    */*) folder="${file%/*}" ;;
    *) folder=. ;;
esac
exec "$folder/../libexec/ploverchaise/moc" "$@"
