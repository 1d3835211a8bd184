# What is kept of a build of the crate $crate, in the folder $kept: read by `uvt` and by `.ci/run`, which set $root, $crate and $kept, and
# have `say` and `fail`. The crate is uvt, or uvt_find, with a folder of its own.
#
#   uvt     the built program, which is named as its crate is. It comes by a rename, so a running one is never written to
#   sums    the kit and the sources that it was built from: what `rt version` says, and the SHA-256 of each file
#   stats   the same files, and the kit's, as the file system has them: while nothing differs here, nothing was changed
#   log     what rt said of the crate that failed last
#   lock    held while a call builds: a second call waits, and then starts what the first one built
#   unproved/   the same for the program before its proofs, which is never taken for a built one: uvt, sums, stats, lock

# How long a build takes, as docs/BENCHMARKS.md has measured it.
build_takes='some 19 minutes on four cores'

# Whether the files that the stored list names, and those beside them, are as they were when it was written.
# Its first line names the folders, so that nothing else has to be read.
is_unchanged() {
    [ -x "$kept/$crate" ] && read -r sources 2>/dev/null <"$kept/stats" && stats | cmp -s - "$kept/stats"
}

# Each file of $sources, of which some may not be there, with its size, its times and its number. The time
# of change (%C@) can't be set by hand, so a file that was put back with its old date counts as changed
# here, and then the sums decide.
stats() {
    printf '%s\n' "$sources"
    kit_stats
    (cd "$root" && find $sources ! -type d -printf '%p %s %T@ %C@ %i\n' 2>/dev/null)
}

# The kit's command and its name, as the file system has them, in a line. Without the kit nothing can be built, and
# what was built goes on serving.
kit_stats() {
    rt=$(command -v rt) || {
        sed -n 2p "$kept/stats" 2>/dev/null
        return
    }
    rt=$(readlink -f "$rt")
    echo $(find "$rt" "${rt%/*}/../KIT-ID" -printf '%p %s %T@ %C@ %i\n' 2>/dev/null)
}

# What the kit says of itself, and each file of $sources with the SHA-256 of what it holds.
sums() {
    rt version 2>/dev/null
    (cd "$root" && find $sources ! -type d -exec sha256sum {} + 2>/dev/null) | LC_ALL=C sort -k 2
}

# Whether the built program is of the kit and the sources as they are now, also where files were only touched: then it is
# marked as such. It says nothing, and builds nothing.
is_built() {
    is_unchanged && return
    [ -x "$kept/$crate" ] && [ -s "$kept/sums" ] || return
    # (what the program before its proofs was compiled from is something else)
    ! (kept=$kept/unproved && is_unchanged) || return
    list_sources
    cmp -s "$kept/sums" "$kept/sums.$$" && mv -f "$kept/stats.$$" "$kept/stats" && rm -f "$kept/sums.$$" && return
    drop_lists
    false
}

drop_lists() {
    [ -z "$summing" ] || wait "$summing"
    summing=''
    rm -f "$kept/stats.$$" "$kept/sums.$$"
}

# Lists the sources as they are now, in files of this call's own. The lists are made before a build: a file that changes
# meanwhile differs from them at the next call.
list_sources() {
    begin_lists
    end_lists
}

# Begins to list them: the sums are made in the background, by the process $summing.
begin_lists() {
    mkdir -p "$kept" || fail "cannot write to $kept"
    find_crates
    sources=crates.txt
    for it in $crates; do
        sources="$sources crates/$it/src crates/$it/specs crates/$it/proofs"
    done
    true >"$kept/stats.$$" || fail "cannot write to $kept"
    stats >"$kept/stats.$$"
    sums >"$kept/sums.$$" 9>&- &
    summing=$!
}

# Waits for the sums. They are of the sources as the other list has them where no file was changed meanwhile; else they are of no use.
end_lists() {
    [ -n "$summing" ] || return 0
    wait "$summing"
    summing=''
    if [ "$(wc -l <"$kept/stats.$$")" -lt 2 ] || [ ! -s "$kept/sums.$$" ]; then
        fail "cannot list the sources: this needs the commands find (GNU) and sha256sum"
    fi
    stats | cmp -s - "$kept/stats.$$" || true >"$kept/sums.$$"
}

# Sets $crates to the crates of crates.txt that the program depends on, each after those that it depends on
# itself, and the program last.
find_crates() {
    crates=$(awk '
        { sub(/#.*/, "") }
        match($0, /:/) {
            split(substr($0, 1, RSTART - 1), words)
            below[words[1]] = substr($0, RSTART + 1)
        }
        function add(name, deps, count, i) {
            if (!(name in below) || name in added) return
            added[name] = 1
            count = split(below[name], deps)
            for (i = 1; i <= count; i++) add(deps[i])
            print name
        }
        END { add(program) }' program="$crate" "$root/crates.txt")
    [ -n "$crates" ] || fail "crates.txt has no line for the crate $crate"
}

# Keeps a program that was built of the sources as the lists have them.
keep() {
    cp "$1" "$kept/$crate.new" || fail "cannot copy the program to $kept"
    # (without the lists a call builds again, so one that ends between these steps does no harm)
    rm -f "$kept/stats" "$kept/sums"
    rm -rf "$kept/unproved"
    mv -f "$kept/$crate.new" "$kept/$crate" && mv -f "$kept/sums.$$" "$kept/sums" && mv -f "$kept/stats.$$" "$kept/stats" ||
        fail "cannot write to $kept"
}

# Compiles the program before its proofs, if need be, while no other call does. $kept is its folder then. Behind it $fresh says whether that
# had to be done.
compile_alone() {
    is_built && return
    fresh=1
    for it in rt:"the kit's command" python3:"a command that the kit needs too"; do
        command -v "${it%%:*}" >/dev/null || {
            say "there is no program yet, and it can't be compiled: ${it#*:}, ${it%%:*}, isn't on the PATH. README.md says what to do without the kit"
            return 1
        }
    done
    alone compile_changed
}

# Builds, if need be, while no other call does; with a word it says so where nothing is to be done.
build_alone() {
    alone build_changed "$@"
}

# Calls what follows while no other call does so in $kept.
alone() {
    mkdir -p "$kept" || fail "cannot write to $kept"
    if command -v flock >/dev/null; then
        exec 9>"$kept/lock"
        flock -n 9 || {
            say "another call is building the program: waiting for it"
            flock 9
        }
    else
        until mkdir "$kept/lock.d" 2>/dev/null; do
            [ -n "$told" ] || say "another call is building the program: waiting for it (if none is, remove $kept/lock.d)"
            told=1
            sleep 1
        done
        held=$kept/lock.d
    fi
    "$@"
    built=$?
    exec 9>&-
    [ -z "$held" ] || rmdir "$held"
    held=''
    return "$built"
}

# Builds unless a call that was waited for has done so, or what the files hold is what was built.
build_changed() {
    if is_built; then
        [ -z "$1" ] || say "the program is built already, and nothing has changed since"
        return
    fi
    command -v rt >/dev/null || fail "the program has to be built, and the kit's command rt, which proves and builds it, isn't on the PATH"
    command -v python3 >/dev/null || fail "the program has to be built, and the command python3, which the kit needs too, isn't on the PATH"
    list_sources
    make "$root/crates/$crate/out/$crate" build "$root" "$kept" $crates || return 70
}

# Where there are more processors than one, the search is compiled beside the first program, with what these leave, by a call of its own, which
# has its own lock: who wants the search soon finds it there, or waits for the rest. Nothing here waits for it; where this call is interrupted, so is
# that one. UVT_ONE=1 has only what is asked for compiled.
also_find() {
    [ -z "$UVT_ONE" ] && [ "$crate" = uvt ] && [ ! -d "$root/out/uvt_find" ] && command -v setsid >/dev/null || return 0
    [ "$(nproc 2>/dev/null || echo 1)" -gt 1 ] || return 0
    setsid nice "$root/uvt" path find </dev/null >/dev/null 2>&1 9>&- &
    also=$!
}

# The same for the program before its proofs, which is compiled while the sums are made.
compile_changed() {
    is_built && return
    also_find
    begin_lists
    make "$kept/compiled" unproved "$root" "$crate" "$kept/compiled" && rm -f "$kept/compiled"
}

# Runs a tool that makes the program, and keeps what it has made.
make() {
    made=$1
    shift
    # (a signal ends the build with all that it has started; at a terminal the builder has an interrupt from there, too, and what it says
    # it was ended by has to be the same of both)
    python3 "$root/tools/start.py" "$@" </dev/null 9>&- &
    builder=$!
    for it in INT HUP TERM; do
        trap "kill -$it $builder 2>/dev/null" "$it"
    done
    while :; do
        wait "$builder"
        status=$?
        # (a signal ends the wait, and not yet the builder)
        kill -0 "$builder" 2>/dev/null || break
    done
    trap - INT HUP TERM
    if [ "$status" = 0 ]; then
        end_lists
        keep "$made"
    else
        drop_lists
        return "$status"
    fi
}
