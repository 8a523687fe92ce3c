# Sourced by the benches: builds the program if it isn't built, goes to a folder that is removed at the end, and defines `measure`.
here="$(cd "$(dirname "${BASH_SOURCE[0]}")/.." && pwd)"
program="$here/crates/meshadapt/out/meshadapt"
[ -x "$program" ] || "$here/meshadapt" >/dev/null || true
folder="$(mktemp -d)"
trap 'rm -rf "$folder"' EXIT
cd "$folder"

# Runs the program on the mesh file $1 with the size $2 and $3 rounds, each with $4 passes of collapses and $5 of swaps, or none, and tells its status, wall time, processor time and peak memory.
measure() { measure_words --plain --mesh "$1" --uniform "$2" --rounds "$3" --collapse "${4-0}" --swap "${5-0}" --out stored; }

# The same with the size file $2.
measure_sizes() { measure_words --plain --mesh "$1" --size "$2" --rounds "$3" --collapse "${4-0}" --swap "${5-0}" --out stored; }

# The same over $3 parts by the partition file $4 and the schedule $5, with $6 rounds, each with $7 passes of collapses and $8 of swaps, or none.
measure_parts() { measure_words --mesh "$1" --uniform "$2" --parts "$3" --partition "$4" --schedule "$5" --rounds "$6" --collapse "${7-0}" --swap "${8-0}" --out stored; }

# The same with these words.
measure_words() {
    python3 - "$program" "$@" <<'END'
import os, sys, time
start = time.perf_counter()
pid = os.spawnv(os.P_NOWAIT, sys.argv[1], sys.argv[1:])
_, status, usage = os.wait4(pid, 0)
print(f"status {os.waitstatus_to_exitcode(status)}, {time.perf_counter() - start:.2f} s, {usage.ru_utime + usage.ru_stime:.2f} s of one processor, {usage.ru_maxrss // 1024} MB", flush=True)
END
}
