# What the scripts of this folder share; they run it at the top of the repository. Equal files give equal releases: what is packed
# has the date of the newest change.
umask 022
version=$(cat VERSION)
export SOURCE_DATE_EPOCH="${SOURCE_DATE_EPOCH:-$(git log -1 --format=%ct 2> /dev/null || stat -c %Y VERSION)}"
