#!/usr/bin/env bash
# Makes a Debian package of what `make install` puts, from the programs in bin/, and needs no root: of the version that
# the newer of the two prints, for this machine's architecture. Says the package's name in bin/. It depends on the
# packages of the libraries that the programs name, and of the C library on the newest version that they use.
set -euo pipefail
cd "$(dirname "${BASH_SOURCE[0]}")/.."

programs=(bin/vtools bin/vslog)
version=$(for program in "${programs[@]}"; do "$program" --version; done | sort -Vk 2 | sed -n '$s/.* //p')
architecture=$(dpkg --print-architecture)
c_library=$(readelf -V "${programs[@]}" | grep -o 'GLIBC_[0-9.]*' | sort -V | sed -n '$s/.*_//p')
libraries=$(ldd "${programs[@]}" | sed -n 's/.* => \(.*\) (.*/*\1/p' | sort -u)
# shellcheck disable=SC2086
packages=$(dpkg-query -S $libraries | sed "s/:.*//; s/^libc6\$/libc6 (>= $c_library)/" | sort -u)

folder=$(mktemp -d)
trap 'rm -rf "$folder"' EXIT
umask 022
root=$folder/root
mkdir -p "$root/DEBIAN"
make --no-print-directory place "DESTDIR=$root" PREFIX=/usr ZSH_FOLDER=share/zsh/vendor-completions
cat >"$root/DEBIAN/control" <<CONTROL
Package: vtools
Version: $version
Architecture: $architecture
Maintainer: Damaskore maintainers <maintainers@users.noreply.damaskore.example>
Depends: ${packages//$'\n'/, }
Suggests: varnish
Section: web
Priority: optional
Installed-Size: $(du -ks "$root/usr" | cut -f 1)
Description: Varnish's logging tools as one program
 vtools is varnishlog, varnishncsa, varnishtop and varnishstat of Varnish
 Cache 7 as one program, over files and pipes. It reads no server's memory:
 vslog makes a log file of what Varnish's varnishlog writes, as it comes.
CONTROL
(cd "$root" && find usr -type f -exec md5sum {} + >DEBIAN/md5sums)
package=bin/vtools_${version}_$architecture.deb
dpkg-deb --root-owner-group --build "$root" "$package" >/dev/null
echo "$package"
