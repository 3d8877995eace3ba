# How ./package packs a folder. `version` is the package's, and SOURCE_DATE_EPOCH the date of every file.

# Prints a folder's entries $2.. as a compressed archive, whose bytes depend on the names, modes and contents alone.
packed() {
    tar --format=gnu --sort=name --owner=0 --group=0 --numeric-owner --mtime="@$SOURCE_DATE_EPOCH" -C "$1" -cf - "${@:2}" | gzip -9n
}

# Turns what ./install puts in place into what Debian expects below /usr: compressed manual pages, and completions for zsh in a folder of their own.
debian_layout() {
    find "$1/share/man" -type f -exec gzip -9n {} +
    mv "$1/share/zsh/site-functions" "$1/share/zsh/vendor-completions"
    if [ -f "$here/CHANGELOG.md" ]; then
        mkdir -p "$1/share/doc/sitgurp"
        gzip -9nc "$here/CHANGELOG.md" > "$1/share/doc/sitgurp/changelog.gz"
    fi
}

# Prints the packages that the programs and libraries below $1 need: the C library in the newest version that one of them names, and the others by their names.
needed_packages() {
    local files=("$1"/usr/bin/* "$1"/usr/lib/libsitgurp.so.*.*) libc
    libc=$(readelf -VW "${files[@]}" | grep -o 'GLIBC_[0-9.]*' | sed 's/GLIBC_//' | sort -uV | tail -n 1)
    readelf -dW "${files[@]}" | sed -n 's/.*(NEEDED).*\[\(.*\)\]/\1/p' | sort -u | while IFS= read -r name; do
        case $name in
        libc.so.6) echo "libc6 (>= $libc)" ;;
        ld-linux-x86-64.so.2) ;;
        libgcc_s.so.1) echo libgcc-s1 ;;
        *)
            echo "no package is known for $name" >&2
            return 1
            ;;
        esac
    done | paste -sd , - | sed 's/,/, /g'
}

# Prints the package's description for dpkg.
control() {
    local needs
    needs=$(needed_packages "$1")
    cat <<-EOF
	Package: sitgurp
	Version: $version
	Architecture: amd64
	Maintainer: $(git -C "$here" log -1 --format='%an <%ae>' 2> /dev/null || echo 'Sitgurp <sitgurp@localhost>')
	Installed-Size: $(find "$1/usr" -type f -printf '%s\n' | awk '{ total += int(($1 + 1023) / 1024) } END { print total }')
	Depends: $needs
	Section: electronics
	Priority: optional
	Description: trees of two-input lookup gates from tables of shades
	 Sitgurp turns a table of shades into a tree of two-input lookup gates, or
	 proves that there is none. This package has the command, the proved programs,
	 the library for C and C++, its header, the manual pages, the completions and
	 the page for browsers.
	EOF
}

# Writes the Debian package $3 of the files below $1, with $2 as a folder to work in.
debian_package() {
    mkdir -p "$2/control"
    control "$1" > "$2/control/control"
    (cd "$1" && find usr -type f | sort | xargs -d '\n' md5sum) > "$2/control/md5sums"
    # the list of shared libraries is made anew
    echo 'activate-noawait ldconfig' > "$2/control/triggers"
    echo 2.0 > "$2/debian-binary"
    packed "$2/control" ./control ./md5sums ./triggers > "$2/control.tar.gz"
    packed "$1" . > "$2/data.tar.gz"
    rm -f "$3"
    (cd "$2" && ar qcDS package debian-binary control.tar.gz data.tar.gz)
    mv "$2/package" "$3"
}
