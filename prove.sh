# Makes the program crates/itch/out/itch where it is missing or older than its sources: proves each crate that it stands on
# as soon as those below are proved, side by side, and then builds and links it. ./itch reads this file, calls make_program
# and names its own folder as $top. Nothing is said where nothing is to be done; else standard error says how far it is.
#
# make_program returns, or ends the shell: with 126 where the program isn't proved and built, 127 where there is no toolchain
# and after an interrupt with 128 and the signal's number. The crates that were proved until then are kept, and the next call
# goes on from there. What is proved is what the sources were when it began.
#
# The toolchain's prover is called for each crate by itself, as `rt ci` does it: a library has what other crates can cite of
# it, and not its proofs, which with `rt lib` each crate above loads again. And `rt` locks a crate's folder and those of all
# crates below it, so that of two crates which share one it proves one after another.

out=$top/crates/itch/out
program=$out/itch
logs=$out/logs
# The libraries of crates that are proved, a folder each, with sums of what it was made of. `rt ci` puts a folder of this name
# back; `rt verdict` in crates/itch removes it, and all is proved again.
libraries=$out/rlib
# What a call under way needs: the sources as they were, and lists.
room=$out/proving
# The most memory that a job takes, in KiB: 0.7 to 2.8 GB were seen.
job_memory=2800000

say() {
    printf 'itch: %s\n' "$*" >&2
}

# stop WORD.. : says why nothing can be built, and ends.
stop() {
    say "$@"
    exit 126
}

now() {
    date +%s
}

# crates_of_program FILE : the crates that the program stands on, and its own, by a list of crates.
crates_of_program() {
    awk '
        /^[a-z]/ { sub(/#.*/, ""); split($0, line, ":"); split(line[1], name, " "); uses[name[1]] = line[2] }
        END {
            left = "itch"
            while (split(left, names, " ") > 0) {
                left = ""
                for (at in names)
                    if (names[at] in uses) {
                        print names[at]
                        left = left " " uses[names[at]]
                        delete uses[names[at]]
                    }
            }
        }' "$1"
}

# Whether the program is missing, or a source was changed after the build began that made it.
is_stale() {
    [ -x "$program" ] || return 0
    [ -n "$(cd "$top/crates" && find ../crates.txt $(crates_of_program ../crates.txt) \( -name out -o -name must-fail \) -prune -o \
        \( -name crates.txt -o -name '*.rt' -o -name '*.antt' \) -newer "$program" -print -quit)" ]
}

# Waits while another call builds the program. Without flock nothing is waited for, and of two that build one may fail.
wait_for_others() {
    command -v flock >/dev/null || return 0
    exec 9>"$out/build.lock"
    flock -n 9 || {
        say 'waiting for another launch, which builds the program'
        flock 9
    }
}

# Keeps the sources as they are now, which are plain files and folders.
keep_sources() {
    mkdir -p "$room/sources/crates"
    : >"$room/began"
    cp "$top/crates.txt" "$room/sources"
    list=$room/sources/crates.txt
    for crate in $(crates_of_program "$list"); do
        mkdir "$room/sources/crates/$crate"
        for part in src specs proofs; do
            [ ! -d "$top/crates/$crate/$part" ] || cp -R "$top/crates/$crate/$part" "$room/sources/crates/$crate"
        done
    done
    other=$(find "$room/sources" ! -type f ! -type d -print)
    [ -z "$other" ] || stop "no plain file or folder: $other"
}

# uses_of NAME : the libraries that a crate names.
uses_of() {
    awk -v name="$1" '{ sub(/#.*/, ""); split($0, line, ":"); split(line[1], words, " ") } words[1] == name { print line[2] }' \
        "$list"
}

# A line for each crate: its name, and a sum of the toolchain, of the libraries that it names and of its sources.
list_sums() {
    version=$(rt version)
    for crate in $(crates_of_program "$list"); do
        sum=$(
            cd "$room/sources/crates/$crate"
            {
                echo "$version"
                uses_of "$crate"
                find . -type f -exec sha256sum {} + | LC_ALL=C sort -k 2
            } | sha256sum
        )
        echo "$crate ${sum%% *}"
    done
}

# below NAME : the crates below a crate.
below() {
    awk -v name="$1" '$1 == name { $1 = $2 = $3 = ""; print }' "$room/plan"
}

# sums_of NAME : the sums of a crate and of all crates below it.
sums_of() {
    awk -v names=" $1 $(below "$1") " 'index(names, " " $1 " ")' "$room/sums" | LC_ALL=C sort
}

# sum_of_made NAME : what was made of a crate, so that nothing else is taken for it: the program, or that there is a library.
sum_of_made() {
    if [ "$1" = itch ]; then
        [ ! -e "$program" ] || sha256sum <"$program"
    elif [ -d "$libraries/$1/$1.rlib" ]; then
        echo library
    fi
}

# is_kept NAME : whether a crate was proved as it is now, with all below it.
is_kept() {
    { sums_of "$1"; sum_of_made "$1"; } | cmp -s - "$libraries/$1/sums"
}

# A line for each crate: its name, how long it is, how long the longest chain is from it up to the program, and all crates
# below it; the longest chain first. A crate is as long as its lines, 400 more, and 200 for each crate below it, whose
# contracts its proofs load. That is about how long proofs took.
plan() {
    for crate in $(crates_of_program "$list"); do
        echo "$crate $(find "$room/sources/crates/$crate" -type f -exec cat {} + | wc -l)"
    done | awk '
        FNR == NR { lines[$1] = $2; next }
        /^[a-z]/ { sub(/#.*/, ""); split($0, line, ":"); split(line[1], name, " "); uses[name[1]] = line[2] }
        # The crates below this one, as keys of all.
        function gather(crate, all,    names, at) {
            split(uses[crate], names, " ")
            for (at in names)
                if (names[at] in lines && !(names[at] in all)) {
                    all[names[at]] = 1
                    gather(names[at], all)
                }
        }
        # How long the longest chain is from this crate up.
        function chain_of(crate,    above, most) {
            if (!(crate in chain)) {
                most = 0
                for (above in lines)
                    if (index(" " uses[above] " ", " " crate " ") && chain_of(above) > most)
                        most = chain_of(above)
                chain[crate] = most + length_of[crate]
            }
            return chain[crate]
        }
        END {
            for (crate in lines) {
                split("", all)
                gather(crate, all)
                length_of[crate] = lines[crate] + 400
                for (other in all) {
                    length_of[crate] += 200
                    below[crate] = below[crate] " " other
                }
            }
            for (crate in lines)
                printf "%s %d %d%s\n", crate, length_of[crate], chain_of(crate), below[crate]
        }' - "$list" | sort -k 3,3nr
}

# schedule WORD : by the plan and what is kept, has begun and ended, 'next' prints a crate to begin now, if there is one, with
# how many jobs; 'state' which are under way, how many are left, and about how many minutes, once a tenth is done: those
# of the longest chain, or of all that is left where few jobs run at once. The crate with the longest chain above it goes
# first, and has two jobs where there are four. A crate that no other is ready beside has all jobs that are free.
schedule() {
    awk -v word="$1" -v most="$most_jobs" -v now="$(now)" '
        FNR == NR { order[++count] = $1; length_of[$1] = $2; whole += $2; chain[$1] = $3; below[$1] = $0; next }
        $1 == "kept" { proved[$2] = 1; whole -= length_of[$2] }
        $1 == "began" { running[$2] = $3; began[$2] = $4; used += $3 }
        $1 == "proved" {
            used -= running[$2]
            delete running[$2]
            proved[$2] = 1
            ended++
            seconds += $3 - began[$2]
            done += length_of[$2]
        }
        function is_ready(crate,    names, at) {
            for (at = split(below[crate], names, " "); at > 3; at--)
                if (!(names[at] in proved))
                    return 0
            return 1
        }
        # The seconds that a crate still takes.
        function left_of(crate,    own) {
            own = length_of[crate] * seconds / done - (crate in running ? now - began[crate] : 0)
            return own > 0 ? own : 0
        }
        END {
            known = 10 * done > whole
            for (at = 1; at <= count; at++) {
                crate = order[at]
                if (crate in proved)
                    continue
                left++
                first = first ? first : crate
                if (crate in running)
                    names = names (names == "" ? "" : ", ") crate
                else if (is_ready(crate) && ++ready == 1)
                    next_crate = crate
                if (known) {
                    all += left_of(crate) / most
                    one = left_of(crate) + (chain[crate] - length_of[crate]) * seconds / done
                    longest = one > longest ? one : longest
                }
            }
            longest = all > longest ? all : longest
            if (word == "next" && ready && used < most)
                print next_crate, (ready == 1 ? most - used : next_crate == first && most >= 4 && used + 2 <= most ? 2 : 1)
            if (word == "state" && names != "")
                printf "proving %s; %d of %d crates left%s\n", names, left, left + ended,
                    known ? sprintf(", about %d min", int(longest / 60) + 1) : ""
        }' "$room/plan" "$room/state"
}

# How many jobs may run at once, by processors and by the memory that is free now.
count_jobs() {
    free=$(awk '/^MemAvailable:/ { print $2 }' /proc/meminfo)
    most_jobs=$(nproc)
    [ "$most_jobs" -le $((free / job_memory)) ] || most_jobs=$((free / job_memory))
    [ "$most_jobs" -ge 1 ] || most_jobs=1
}

# call_prover WORD.. : calls the prover, in a group of its own, where that can be had, so that all that it starts ends with it.
call_prover() {
    if command -v setsid >/dev/null; then
        setsid "$kit/bin/rattle" "$@" >"$logs/$name.log" 2>&1 </dev/null &
        work=-$!
    else
        "$kit/bin/rattle" "$@" >"$logs/$name.log" 2>&1 </dev/null &
        work=$!
    fi
    wait "$!"
}

# run_prover WORD.. : has the prover build by $jobs jobs, and where it was killed, as for memory, once more by one.
run_prover() {
    ended=0
    call_prover build --crate-name "$name" "$@" --jobs "$jobs" || ended=$?
    [ "$ended" = 137 ] && [ "$jobs" -gt 1 ] || return "$ended"
    call_prover build --crate-name "$name" "$@" --jobs 1
}

# prove NAME JOBS : proves a crate, which is $name, and makes its library, or the program.
prove() {
    made=$libraries/$name
    rm -rf "$made"
    mkdir "$made"
    sums=$(sums_of "$name")
    jobs=$2
    cd "$room/sources/crates/$name"
    set -- --extern "std=$kit/rlibs/std.rlib" -L "dependency=$kit/rlibs"
    for used in $(uses_of "$name"); do
        if [ -d "$room/sources/crates/$used" ]; then
            set -- "$@" --extern "$used=$libraries/$used/$used.rlib"
        else
            set -- "$@" --extern "$used=$kit/rlibs/$used.rlib"
        fi
    done
    for crate in $(below "$name"); do
        set -- "$@" -L "dependency=$libraries/$crate"
    done
    set -- "$@" --links "$name=" --antt-project "$kit/rattle/logic/antt-project.json" --logic-built "$kit/logic_built"
    if [ "$name" = itch ]; then
        run_prover src/main.rt "$@" --toolchain "$kit/toolchain" -o "$room/itch.o" || return
        "$kit/bin/rattle-link" --target x86_64-unknown-linux-gnu --toolchain "$kit/toolchain" -o "$room/itch" \
            "$room/itch.o" "$kit/c/libos_c.a" "$kit/c/liblibc_c.a" >>"$logs/$name.log" 2>&1 || return
        touch -r "$room/began" "$room/itch"
        mv "$room/itch" "$program"
    else
        run_prover src/lib.rt "$@" --statements -o "$made/$name.rlib" || return
    fi
    { echo "$sums"; sum_of_made "$name"; } >"$made/sums"
}

# begin NAME JOBS : proves a crate beside others. Its status is there when it has ended.
begin() {
    echo "began $1 $2 $(now)" >>"$room/state"
    (
        name=$1
        work=
        trap 'echo "$?" >"$room/$name.status" && mv "$room/$name.status" "$room/$name.ended"' EXIT
        trap '[ -z "$work" ] || { kill -- "$work" || kill "${work#-}" || :; wait; } 2>/dev/null; exit 1' HUP TERM
        prove "$@"
    ) &
    echo "$!" >"$room/$1.job"
}

# Takes over what a crate's proof has made; or, where it isn't proved, says why, and ends all.
take_over() {
    name=$1
    if [ "$(cat "$room/$name.ended")" != 0 ]; then
        say "$name isn't proved, so there is nothing to run; of the log $logs/$name.log:"
        grep -E 'error(\[|:)|: not proved' "$logs/$name.log" | head -n 5 >&2 || :
        echo ... >&2
        tail -n 10 "$logs/$name.log" >&2 || :
        exit 126
    fi
    rm -f "$room/$name.ended" "$room/$name.job"
    echo "proved $name $(now)" >>"$room/state"
}

# Begins as many crates as may be under way now.
begin_more() {
    while next=$(schedule next) && [ -n "$next" ]; do
        begin $next
    done
    state=$(schedule state)
    [ -z "$state" ] || say "$state"
}

# Takes over crates as their proofs end, and begins others, until all are proved. A job that was killed has not said how it
# ended.
prove_all() {
    begin_more
    while [ "$(grep -c '^proved' "$room/state")" -lt "$left" ]; do
        sleep 0.2 &
        wait "$!"
        for job in "$room"/*.job; do
            [ -e "$job" ] || continue
            name=$(basename "$job" .job)
            kill -0 "$(cat "$job")" 2>/dev/null || [ -e "$room/$name.ended" ] || echo killed >"$room/$name.ended"
            if [ -e "$room/$name.ended" ]; then
                take_over "$name"
                begin_more
            fi
        done
    done
}

# Ends what is under way.
clear_room() {
    for job in "$room"/*.job; do
        [ ! -e "$job" ] || kill "$(cat "$job")" 2>/dev/null || :
    done
    wait
    rm -rf "$room"
}

# give_up STATUS : ends where the program isn't proved and built.
give_up() {
    trap '' HUP INT QUIT PIPE TERM
    clear_room || :
    [ "$1" -ge 126 ] || exit 126
    exit "$1"
}

build() {
    start=$(now)
    # What a call has left that was killed. Its jobs have ended: they held the lock.
    rm -f "$room"/*.job
    clear_room
    trap 'give_up "$?"' EXIT
    trap 'exit 129' HUP
    trap 'exit 130' INT
    trap 'exit 131' QUIT
    trap 'exit 141' PIPE
    trap 'exit 143' TERM
    kit=$(dirname -- "$(rt doc)")
    [ -x "$kit/bin/rattle" ] && [ -x "$kit/bin/rattle-link" ] || stop "there is no prover in $kit/bin, where rt has it"
    command -v sha256sum >/dev/null || stop "there is no sha256sum, which tells what was proved"
    keep_sources
    plan >"$room/plan"
    grep -q '^itch ' "$room/plan" || stop 'crates.txt has no line for itch'
    list_sums >"$room/sums"
    while read -r name rest; do
        ! is_kept "$name" || echo "kept $name"
    done <"$room/plan" >"$room/state"
    left=$(($(wc -l <"$room/plan") - $(wc -l <"$room/state")))
    if [ "$left" = 0 ]; then
        # Only dates have changed.
        touch -r "$room/began" "$program"
    else
        count_jobs
        say "proving and building the program: $left crates, jobs at once: $most_jobs; the logs are in $logs"
        say 'a first call took 15 minutes, and 49 minutes of processor time, on 4 cores of 2.7 GHz'
        say "for a first look at a small file without proof there is $top/look"
        prove_all
        say "proved and built in $(($(now) - start)) s"
    fi
    clear_room
    trap - EXIT HUP INT QUIT PIPE TERM
}

make_program() {
    is_stale || return 0
    if ! mkdir -p "$logs" "$libraries" || [ ! -w "$out" ]; then
        say "the program is missing or older than its sources, and $out can't be written"
        exit 126
    fi
    wait_for_others
    if is_stale; then
        command -v rt >/dev/null || {
            say "the program is missing or older than its sources, and rt, the Rattle toolchain, isn't here to build it"
            exit 127
        }
        build
    fi
    exec 9>&-
}
