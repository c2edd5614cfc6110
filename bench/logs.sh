# Sourced by the scripts beside it: the top of the repository, a folder with the logs of make_logs.py, which goes at the end, and what
# machine this is.
top=$(cd "$(dirname "${BASH_SOURCE[0]}")/.." && pwd)
folder=$(mktemp -d)
trap 'rm -rf "$folder"' EXIT
python3 "$top/bench/make_logs.py" "$folder"
echo "machine: $(nproc) processors, $(date -u +%F)"
