# What the scripts that make Debian packages share; they run it at the top of the repository. A package is what lies in a
# folder of its own, which is called its stage. Equal files give equal packages.
. packaging/release.sh
# The packages are made here: Debian's own begin at the revision 1, which is later.
debian_version=$version-0upstream1
architecture=$(dpkg --print-architecture)
maintainer="Yozhdyrga maintainers <maintainers@users.noreply.yozhdyrga.example>"

# put_papers NAME STAGE: the licence, and the lists of changes.
put_papers() {
    papers=$2/usr/share/doc/$1
    install -D -m 644 LICENSE "$papers/copyright"
    install -m 644 CHANGELOG.md "$papers/changelog"
    cat > "$papers/changelog.Debian" << END
udsnorm ($debian_version) unstable; urgency=low

  * The program as it was released. What is new in it stands in changelog.gz.

 -- $maintainer  $(LC_ALL=C date -u -R -d "@$SOURCE_DATE_EPOCH")
END
    gzip -9n "$papers/changelog" "$papers/changelog.Debian"
}

# build_package NAME STAGE ARCHITECTURE FOLDER: makes the package in a folder, and prints its path. The fields that are its
# own come from standard input, the description last.
build_package() {
    mkdir -p "$2/DEBIAN"
    {
        printf 'Package: %s\nVersion: %s\nArchitecture: %s\nMaintainer: %s\n' "$1" "$debian_version" "$3" "$maintainer"
        printf 'Installed-Size: %s\nPriority: optional\n' "$(du -sk "$2/usr" | cut -f 1)"
        cat
    } > "$2/DEBIAN/control"
    (cd "$2" && find usr -type f | LC_ALL=C sort | xargs md5sum) > "$2/DEBIAN/md5sums"
    package=$4/$1_${debian_version}_$3.deb
    dpkg-deb --root-owner-group --build "$2" "$package" > /dev/null
    echo "$package"
}
