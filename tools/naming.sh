# Read by bash, at the top of the repository: what a build reports of its toolchain and of its commit. Sources have two texts for
# them (crates/jr_base/src/version.rt); what takes their place is as long.
unnamed_toolchain="an unnamed toolchain"
unnamed_commit="built in a working tree, and of no named commit"

# Writes the name of the toolchain that built these files into them. Returns another status than 0 if one cannot be written.
name_toolchain() {
    local built_by file
    built_by=$(rt version | cut -d " " -f 1)
    built_by=$(printf "%-${#unnamed_toolchain}.${#unnamed_toolchain}s" "$built_by")
    for file; do
        LC_ALL=C sed -i "s|$unnamed_toolchain|$built_by|" "$file" || return 1
    done
}

# Prints the name of the tree's commit; nothing if the tree has changes or is not a commit's.
commit_of_tree() {
    git rev-parse --is-inside-work-tree >/dev/null 2>&1 || return 0
    [ -n "$(git status --porcelain)" ] || git rev-parse HEAD
}

# Writes the commit of the tree, if it has one, into a file. Returns another status than 0 if that cannot be written.
name_commit() {
    local commit
    commit=$(commit_of_tree)
    [ -z "$commit" ] || LC_ALL=C sed -i "s/$unnamed_commit/commit $commit/" "$1"
}
