#!/usr/bin/env bash
# Unpacks a JDK of another Debian release, and prints a folder for JAVA_HOME. Nothing is installed.
#
# usage: bench/debian_jdk.sh VERSION [SUITE [ARCHITECTURE]]
#
# VERSION: as in the package openjdk-VERSION-jdk-headless of SUITE (trixie, which has 21 and 25; bookworm has 17).
# ARCHITECTURE: that of this system, or i386, whose virtual machine has 32 bits. The packages are kept unpacked in
# ~/.cache/heapmark-bench, and are not downloaded again.
#
# Programs of another release or architecture need its C library. So each program of the printed folder is a script that
# mounts the folder of those libraries over this system's, for itself alone, and then becomes the program. That wants
# root.
set -euo pipefail

# shellcheck source=bench/usage.sh
. "$(dirname "$0")/usage.sh"
require_number VERSION "$1"
version=$1 suite=${2:-trixie} architecture=${3:-$(dpkg --print-architecture)}
kept=${XDG_CACHE_HOME:-$HOME/.cache}/heapmark-bench/$suite${3:+-$3}
root=$kept/root-$version home=$kept/jdk-$version
packages=(openjdk-"$version"-{jdk,jre}-headless libc6 libc-bin libstdc++6 libgcc-s1 zlib1g libjpeg62-turbo liblcms2-2)

# fetched: downloads the packages into the folder `debs`, by lists of the suite in the folder `apt`.
fetched() {
    local uri options
    mkdir -p "$kept/apt/lists/partial" "$kept/apt/cache/archives/partial" "$root/debs"
    : > "$kept/apt/status"
    uri=$(sed -n 's/^URIs: //p' /etc/apt/sources.list.d/*.sources | grep '/debian$' | head -n 1)
    cat > "$kept/apt/suite.sources" << END
Types: deb
URIs: ${uri:-http://deb.debian.org/debian}
Suites: $suite
Components: main
Signed-By: /usr/share/keyrings/debian-archive-keyring.gpg
END
    options=(-qq -o APT::Sandbox::User=root -o Dir::Etc::sourcelist="$kept/apt/suite.sources" -o Dir::Etc::sourceparts=-
        -o Dir::State::lists="$kept/apt/lists" -o Dir::State::status="$kept/apt/status" -o Dir::Cache="$kept/apt/cache"
        -o APT::Architecture="$architecture" -o APT::Architectures="$architecture")
    apt-get "${options[@]}" update
    (cd "$root/debs" && apt-get "${options[@]}" download "${packages[@]}")
}

# unpacked: unpacks what was downloaded. The JDK's links into /etc lead into its own root.
unpacked() {
    local deb link
    mkdir -p "$root"/usr/{bin,lib,lib64,sbin}
    for link in bin lib lib64 sbin; do ln -sfn "usr/$link" "$root/$link"; done
    for deb in "$root"/debs/*.deb; do dpkg-deb --fsys-tarfile "$deb" | tar -x -C "$root" --keep-directory-symlink; done
    find "$root/usr/lib/jvm" -type l -lname '/etc/*' | while read -r link; do
        ln -sfn "$root$(readlink "$link")" "$link"
    done
    rm -r "$root/debs"
}

# wrapped: writes the scripts that start the JDK's programs.
wrapped() {
    local jdk program
    jdk=$(echo "$root"/usr/lib/jvm/java-"$version"-openjdk-*)
    mkdir -p "$home/bin"
    for program in "$jdk"/bin/*; do
        cat > "$home/bin/$(basename "$program")" << END
#!/bin/sh
exec unshare --mount sh -c 'mount --bind "\$0" /usr/lib && exec "\$@"' "$root/usr/lib" "$program" "\$@"
END
    done
    chmod +x "$home"/bin/*
}

if [ ! -x "$home/bin/java" ]; then
    rm -rf "$root"
    fetched >&2
    unpacked
    wrapped
fi
echo "$home"
