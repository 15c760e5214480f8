#!/bin/sh
# Leaves in dist/ what a program needs to use the kernel: the static library, the shared library, the header and
# a pkg-config file. The folder may be moved as a whole: yigtrav.pc finds the rest beside itself.
#
#     ./dist.sh [ARCHIVE.a]
#
# Without ARCHIVE.a the library is proved and built first (./prove.sh), which takes minutes the first time. With it
# that archive is taken as it is, and nothing is proved. The version is what include/yigtrav.h says; the shared library
# is libyigtrav.so.N, N being its first number. Needs gcc and nm; rt only where no archive is given.
set -eu
case ${1-} in
-h | --help) sed -n '2,9s/^# \{0,1\}//p' "$0"; exit 0 ;;
-*) echo "dist.sh: no option $1" >&2; exit 2 ;;
esac
export LC_ALL=C # one order for sort and comm
fail() { echo "dist.sh: $*" >&2; exit 1; }

# All that is needed is looked for before anything is proved.
cc=${CC:-gcc}
for tool in "${cc%% *}" nm awk; do
    command -v "$tool" >/dev/null || fail "$tool is not on the PATH"
done
if [ $# -gt 0 ]; then
    [ -f "$1" ] || fail "no archive $1"
    archive=$(cd "$(dirname "$1")" && pwd)/$(basename "$1")
else
    command -v rt >/dev/null || fail "the Rattle kit's command rt is not on the PATH"
    archive=target/staticlib/libabi.a
fi
cd "$(dirname "$0")"
part() { awk -v name="YIGTRAV_VERSION_$1" '$1 == "#define" && $2 == name { print $3 }' include/yigtrav.h; }
major=$(part MAJOR)
version=$major.$(part MINOR).$(part PATCH)
expr "$version" : '[0-9]\{1,\}\.[0-9]\{1,\}\.[0-9]\{1,\}$' >/dev/null || fail "include/yigtrav.h has no version"
shared=libyigtrav.so.$major
[ $# -gt 0 ] || ./prove.sh staticlib abi

mkdir -p target dist
new=$(mktemp -d target/dist.XXXXXX)
trap 'rm -rf "$new"' EXIT
trap 'exit 1' HUP INT TERM

# The interface is what the header declares: neither library shows less or more.
sed -n 's/^uint64_t \(yigtrav_[a-z_]*\)(.*/\1/p' include/yigtrav.h | sort >"$new/declared"
nm -g --defined-only "$archive" | awk 'NF == 3 { print $3 }' | sort >"$new/defined"
missing=$(comm -23 "$new/declared" "$new/defined" | tr '\n' ' ')
[ -z "$missing" ] || fail "$archive lacks $missing"
extra=$(comm -13 "$new/declared" "$new/defined" | tr '\n' ' ')
[ -z "$extra" ] || fail "$archive shows $extra"
{ echo '{ global:'; sed 's/$/;/' "$new/declared"; echo 'local: *; };'; } >"$new/exports"

cp "$archive" "$new/libyigtrav.a"
$cc -shared -Wl,--whole-archive "$new/libyigtrav.a" -Wl,--no-whole-archive \
    -Wl,--version-script="$new/exports" -Wl,-soname,"$shared" -Wl,-z,defs -Wl,-z,relro -Wl,-z,now \
    -o "$new/$shared"
nm -D --defined-only "$new/$shared" | awk '{ print $3 }' | sort | cmp -s - "$new/declared" ||
    fail "the shared library does not export exactly the interface"
chmod 644 "$new/libyigtrav.a" "$new/$shared"
ln -s "$shared" "$new/libyigtrav.so" # what -lyigtrav finds; the program then asks for $shared

cat >"$new/yigtrav.pc" <<TEXT
prefix=\${pcfiledir}
libdir=\${prefix}
includedir=\${prefix}/include

Name: yigtrav
Description: Truncated power-series maps modulo 65,521
Version: $version
Libs: -L\${libdir} -lyigtrav
Cflags: -I\${includedir}
TEXT

# Moved into place one by one, so that a program that has the old shared library open keeps it. One of another number
# goes: it is not what the header beside it says.
mkdir -p dist/include
cp include/yigtrav.h "$new/yigtrav.h"
mv -f "$new/yigtrav.h" dist/include/
mv -f "$new/libyigtrav.a" "$new/$shared" "$new/libyigtrav.so" "$new/yigtrav.pc" dist/
for old in dist/libyigtrav.so.*; do
    [ "$old" = "dist/$shared" ] || rm -f "$old"
done
echo "dist/, version $version: libyigtrav.a $shared libyigtrav.so include/yigtrav.h yigtrav.pc"
