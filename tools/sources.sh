# Read by bash, at the top of the repository: what a program or library is made of, and whether that has changed. `name` is the
# crate's; sets `crates` to those that it depends on, each after those below it, and itself.

# Adds the crates of this repository that a crate depends on, each after those below it, and itself.
closure() {
    local crate=$1 below
    case " $crates " in *" $crate "*) return ;; esac
    for below in $(sed -n "s/^$crate\( .*\)\{0,1\}: *//p" crates.txt); do
        if [ -d "crates/$below" ]; then closure "$below"; fi
    done
    crates="$crates $crate"
}

# Prints the files and directories that it is made of.
list_parts() {
    printf '%s\n' crates.txt HANDLES
    local crate part
    for crate in $crates; do
        for part in src specs proofs; do
            if [ -d "crates/$crate/$part" ]; then printf '%s\n' "crates/$crate/$part"; fi
        done
    done
}

# Prints one checksum of all of it, and of the toolchain that builds it.
sum_sources() {
    # shellcheck disable=SC2046 # one argument for each file or directory
    { rt version; find $(list_parts) -type f -print0 | LC_ALL=C sort -z | xargs -0 sha256sum; } | sha256sum
}

crates=""
closure "$name"
