#!/usr/bin/env bash
# Builds the comparison with Kannel's WTP code (kannel/) over Debian's kannel-dev, which is fetched, and prints the table.
set -euo pipefail
usage="usage: host/bench/kannel.sh

Prints ns and instructions of the proved library beside Kannel's own WTP code, in the same program and on the same octets, as a
table in Markdown with the ratios. Kannel comes from Debian's package kannel-dev: installed on x86-64, and elsewhere unpacked for
x86-64 under target/kannel with the libraries that it needs. None of its code is in the repository.

  --help  prints this"

case "$*" in
"") ;;
--help) echo "$usage" && exit 0 ;;
*) echo "$usage" >&2 && exit 2 ;;
esac
cd "$(dirname "$0")/../.."
. host/tools.sh
. host/bench/count.sh
built="$PWD/target/kannel"
mkdir -p "$built/packages"

# Everything that the package's libraries refer to; of libmariadb only the name of its version.
needed=(libssl libcrypto libxml2 libpcreposix libpcre libmariadb)
root=""
if [ -z "$runner" ]; then
    [ -d /usr/include/kannel ] || fetch kannel-dev
else
    root="$built/root"
    if [ ! -d "$root/usr/include/kannel" ]; then
        packages=(kannel-dev libssl-dev libssl3 libxml2-dev libxml2 libicu72 liblzma5 zlib1g)
        packages+=(libpcre3-dev libpcre3 libmariadb3 libzstd1)
        (cd "$built/packages" && apt-get -qq -o Acquire::Retries=3 -o APT::Sandbox::User=root download "${packages[@]/%/:amd64}")
        for package in "$built"/packages/*.deb; do dpkg -x "$package" "$root"; done
    fi
fi
places=("$root/usr/lib/x86_64-linux-gnu" "$root/lib/x86_64-linux-gnu")

# shared NAME: the library NAME as programs load it. The links for the linker don't lead anywhere in an unpacked package.
shared() { find "${places[@]}" -maxdepth 1 -name "$1.so.[0-9]*" | sort | head -n 1; }

built wtp
options=(-std=gnu99 -Wall -Wextra -O2)
sources=host/bench/kannel
headers=("$root/usr/include/kannel" "$root/usr/include/x86_64-linux-gnu" "$root/usr/include/libxml2")
[ -z "$root" ] || headers+=("$root/usr/include")
for name in pdus main; do "$compiler" "${options[@]}" -c "$sources/$name.c" -o "$built/$name.o"; done
"$compiler" "${options[@]}" -Iinclude -c "$sources/library.c" -o "$built/library.o"
"$compiler" "${options[@]}" "${headers[@]/#/-isystem}" -c "$sources/kannel.c" -o "$built/kannel.o"
kannel="${places[0]}/kannel"
"$compiler" -no-pie "$built"/*.o target/staticlib/libwtp.a -Wl,--start-group "$kannel"/lib{wap,gw,gwlib}.a -Wl,--end-group \
    $(for name in "${needed[@]}"; do shared "$name"; done) -lpthread -lm \
    -Wl,--disable-new-dtags,-rpath,"${places[0]}:${places[1]}" -o "$built/compare"
compare="$built/compare"

# Kannel's start reads the machine's certificates, which is long under an emulator and has no part in WTP.
export SSL_CERT_FILE=/dev/null SSL_CERT_DIR=/dev/null

# The emulator writes down only the program and libc, so that the start of the other libraries isn't waited for.
if [ -n "$runner" ]; then
    libc="$("$runner" -E LD_TRACE_LOADED_OBJECTS=1 "$compare" | sed -n 's/.*libc\.so\.6 .*(\(0x[0-9a-f]*\)).*/\1/p')"
    only=(-dfilter "0x400000+0x400000,$libc+0x1d0000")
fi

about
echo "Kannel $(sed -n 's/^#define GW_VERSION "\(.*\)"/\1/p' "$root/usr/include/kannel/gw-config.h"), $("$compiler" --version | head -n 1)"
echo
echo "| Work | Instructions, library | Kannel | ratio | ns, library | Kannel | ratio | spread |"
echo "|---|---:|---:|---:|---:|---:|---:|---:|"
$runner "$compare" --list >"$built/cases"
while read -r name; do
    ours="$(a_time 20 "$compare" --one "$name" library)"
    theirs="$(about_a_time 100 "$compare" --one "$name" kannel)"
    $runner "$compare" --clock "$name" </dev/null | awk -F '\t' -v ours="$ours" -v theirs="$theirs" '
        function thousands(n) { return n < 1000 ? n : thousands(int(n / 1000)) sprintf(",%03d", n % 1000) }
        { printf "| %s | %s | %s | %.2f | %s | %s | %.2f | %d %% |\n", $1, thousands(ours), thousands(theirs), ours / theirs,
            thousands($2), thousands($3), $2 / $3, $4 }'
done <"$built/cases"
