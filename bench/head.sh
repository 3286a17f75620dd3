# Sourced by run.sh of a bench that times a job of the proved program (build_proved.sh) against a plain program in Rust
# (plain.rs, build_plain.sh). run.sh sets `here` first, to its own folder, whose name is the job. This sets `top`, the
# repository, `work`, a folder that is removed at the end, and `plain` and `proved`, what the two are run as. To compare
# them run.sh sets `turns` and `rounds`, and at the end it exits with `status`.
top=$(cd "$here/../.." && pwd)
work=$(mktemp -d) || exit 2
trap 'rm -rf "$work"' EXIT
plain=$work/plain
proved=("$top/crates/call_times/out/call_times" "$(basename "$here")")

# A generated book of a kind, prose or marks, of this many bytes.
make_text() { awk -v kind="$1" -v size="$2" -f "$top/bench/book.awk"; }

# Builds both programs.
build_both() { "$top/bench/build_plain.sh" "$here/plain.rs" "$plain" && "$top/bench/build_proved.sh" || exit 1; }

# What a run prints: its least time of a round in this column, and what it answers after that. How many times as long
# the proved program may take. run.sh may set others.
column=1
limit=1.5
# 1 where a comparison has failed.
status=0

# The least number in a column of a file of outputs.
least() { cut -d' ' -f"$2" "$1" | sort -n | head -n 1; }

# Runs the two turn about with these words, under a name: how long they take, and whether they answer the same.
compare() {
    local name=$1
    shift
    for _ in $(seq "$turns"); do
        "$plain" "$@" "$rounds" >>"$work/$name.plain"
        "${proved[@]}" "$@" "$rounds" >>"$work/$name.proved"
    done
    if [ "$(cut -d' ' -f"$((column + 1))-" "$work/$name".{plain,proved} | sort -u | wc -l)" != 1 ]; then
        echo "$name: the two answer differently"
        cut -d' ' -f"$((column + 1))-" "$work/$name".{plain,proved} | sort -u
        status=1
    fi
    awk -v name="$name" -v limit="$limit" -v plain="$(least "$work/$name.plain" "$column")" \
        -v proved="$(least "$work/$name.proved" "$column")" 'BEGIN {
            printf "%s: plain %d us, proved %d us, ratio %.2f\n", name, plain / 1000, proved / 1000, proved / plain
            exit proved > limit * plain
        }' || status=1
}

# The instructions of a process of one round of the proved program with these words, under a name, which are the same
# whatever runs beside; or the times of some such processes, where valgrind is not there to count. No round finds memory
# that an earlier one has taken.
if command -v valgrind >"$work/log"; then unit=instructions; else unit=nanoseconds; fi
run_once() {
    local name=$1
    shift
    if [ $unit = instructions ]; then
        valgrind --tool=callgrind --callgrind-out-file=/dev/null "${proved[@]}" "$@" 1 2>&1 |
            sed -n 's/.*Collected : //p' >"$work/$name.once"
    else
        for _ in $(seq "$((2 * turns))"); do "${proved[@]}" "$@" 1 | cut -d' ' -f"$column" >>"$work/$name.once"; done
    fi
}

# How the work grows from a size, `bytes`, to ten times the size: what was run once as NAME.SIZE.
tell_growth() {
    awk -v name="$1" -v unit=$unit -v small="$(least "$work/$1.$bytes.once" 1)" \
        -v large="$(least "$work/$1.$((10 * bytes)).once" 1)" 'BEGIN {
            printf "%s: ten times the bytes take %.1f times as many %s\n", name, large / small, unit
            exit large > 12 * small
        }' || status=1
}
